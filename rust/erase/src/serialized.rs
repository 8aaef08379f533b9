//! What the feature `serde` of the crate writes: messages, and what they can hold.

use crate::fault::Fault;
use crate::rules::Eraser;

/// What no message holds: refusals, how something is read, and what asks or walks. What borrows, and
/// layouts, whose names end in `Buffer`, are known by their look.
pub const UNHELD: &[&str] = &[
    "Action",
    "At",
    "AttributeSet",
    "CanonicalError",
    "Context",
    "Conversation",
    "DecodeError",
    "EmitError",
    "EnvelopeError",
    "Form",
    "InfoForm",
    "InfoPortForm",
    "Located",
    "Looks",
    "MessageKind",
    "MessageType",
    "Nest",
    "Seg6Fault",
    "Subject",
    "TcActionForm",
    "TcForm",
    "WriteCanonicalError",
    "WriteError",
];

const PUT: &str = " #[cfg_attr(feature = \"serde\", derive(serde::Serialize))]";

impl Eraser<'_> {
    /// Puts one more derive behind those of a message, or of what one can hold.
    pub(crate) fn serialize(&mut self, behind: usize) -> Result<(), Fault> {
        if self.is_test || self.is_for_c || !self.is_held(behind) {
            return Ok(());
        }
        self.edits
            .insert(&self.source, behind - 1, "derived Serialize", PUT)
    }

    /// Whether such a type is declared here. A set, which is one number, has it by hand.
    fn is_held(&self, at: usize) -> bool {
        let name = self.source.word(at + 2);
        let is_type = self.source.is(at, "pub struct _") || self.source.is(at, "pub enum _");
        let has_parts = ["{", "<"].contains(&self.source.word(at + 3));
        let borrows = self.source.is(at + 3, "< 'a");
        let is_other = name.ends_with("Buffer") || UNHELD.contains(&name);
        is_type && has_parts && !borrows && !is_other
    }
}
