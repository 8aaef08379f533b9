//! Tests of texts: how values are printed, what is shown and reported, and what envelopes say.
//!
//! Bytes stand as hexadecimal text, as a dump shows them. What a clause proves has no test but an
//! example of the format.
#![tactic(auto)]

#[cfg(test)]
mod debugs;
#[cfg(test)]
mod displays;
#[cfg(test)]
mod envelopes;
#[cfg(test)]
mod hexadecimal;
#[cfg(test)]
mod report;
#[cfg(test)]
mod rtnetlink;
#[cfg(test)]
mod shown;
#[cfg(test)]
mod shown_links;
#[cfg(test)]
mod shown_small;
#[cfg(test)]
mod texts;
#[cfg(test)]
mod tunnel_displays;
