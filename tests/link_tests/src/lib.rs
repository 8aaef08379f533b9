//! Tests of link messages: what they are read from, what is written of them, and what is refused.
//!
//! Bytes stand as hexadecimal text, as a dump shows them. What a clause proves has no test but an
//! example of the format.
#![tactic(auto)]

#[cfg(test)]
mod flat;
#[cfg(test)]
mod functions;
#[cfg(test)]
mod header_family;
#[cfg(test)]
mod info;
#[cfg(test)]
mod kinds;
