//! Tests of messages: what they are read from, what is written of them, and what is refused.
//!
//! Bytes stand as hexadecimal text, as a dump shows them. What a clause proves has no test but an
//! example of the format.
#![tactic(auto)]

#[cfg(test)]
mod address;
#[cfg(test)]
mod encap;
#[cfg(test)]
mod hostile;
#[cfg(test)]
mod modes;
#[cfg(test)]
mod neighbour;
#[cfg(test)]
mod next_hops;
#[cfg(test)]
mod one_by_one;
#[cfg(test)]
mod own_message;
#[cfg(test)]
mod route;
#[cfg(test)]
mod rule;
#[cfg(test)]
mod small;
#[cfg(test)]
mod values;
