//! When firmware started and what 0x1F1 said before request A4, so that what was stored before it
//! can be told again.

use crate::frames::{self, Frame, FRAME};
use crate::memory::{flag_byte, SUMS_DIFFER};
use crate::node::{Mode, Node, Outcome};

/// The flag byte that each 0x1F1 had before A4.
const FLAGS_BEFORE: u8 = 0x01;

/// The rule by which a session's firmware starts.
#[derive(Clone, Copy, PartialEq, Eq, Debug, Default)]
pub enum Rule {
    /// That of A4, which is the node's own.
    #[default]
    Now,
    /// Equal sums alone, and the flag byte is always 0x01.
    BeforeA4,
}

impl Rule {
    /// Marks the firmware of a node, behind a restart that gave 0, as this rule does.
    pub fn mark(self, node: &mut Node, flash: &[u8]) {
        if self == Rule::BeforeA4 && matches!(node.mode, Mode::Normal { .. }) {
            node.mode = Mode::Normal { started: flag_byte(flash) & SUMS_DIFFER == 0 };
        }
    }

    /// An outcome of the node as this rule tells it.
    pub fn told(self, mut outcome: Outcome) -> Outcome {
        if self == Rule::BeforeA4 {
            outcome.replies.iter_mut().for_each(tell_before);
        }
        outcome
    }
}

/// Gives a reply, wrapped or not, the flag byte of before A4 where it is 0x1F1.
fn tell_before(reply: &mut Vec<u8>) {
    let wrapped = reply.len() != FRAME;
    let from = wrapped as usize;
    let mut frame: Frame = std::array::from_fn(|i| reply[from + i]);
    if frames::kind(&frame) == 0x1F1 {
        frame[4] = FLAGS_BEFORE;
        *reply = if wrapped { frames::wrapped(&frame).to_vec() } else { frame.to_vec() };
    }
}
