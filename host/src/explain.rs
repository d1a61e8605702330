//! Why a call, a finish or what is made of one was turned down, with the values at hand. The verified library decides and gives a number; here its
//! reason is looked for again, in the tables, to be put into words.

mod calls;
mod finish;
mod join;
mod relas;

pub(crate) use calls::explain_call;
pub(crate) use finish::explain_finish;
pub(crate) use join::explain_join;
pub(crate) use relas::{explain_read_relas, explain_write_relas, of_relocation};

use crate::event::LayoutEvent;

/// Where the tables do not show the reason; the wrapper's tables always do.
const NO_REASON: &str = "the tables do not show why";

/// An event's name with the offsets that it was recorded at: `the jump from 4 to 9`.
fn with_offsets(name: &str, event: &LayoutEvent) -> String {
    format!("{name} from {} to {}", event.start(), event.end())
}
