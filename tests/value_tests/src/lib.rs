//! Tests of values: numbers, addresses, structures, lists and headers, the members of
//! encapsulations, and how often headers are looked at.
//!
//! Bytes stand as hexadecimal text, as a dump shows them. What a clause proves has no test but an
//! example of the format.
#![tactic(auto)]

#[cfg(test)]
mod framing;
#[cfg(test)]
mod gateways;
#[cfg(test)]
mod headers;
#[cfg(test)]
mod lists;
#[cfg(test)]
mod lone;
#[cfg(test)]
mod looks;
#[cfg(test)]
mod srh;
#[cfg(test)]
mod tunnel;
#[cfg(test)]
mod values;
