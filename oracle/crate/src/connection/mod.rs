// In the place of connection/mod.rs, which needs the whole crate: the list of modules, and the one
// method of `State` that streams/mod.rs calls.
mod assembler;
mod mtud;
mod send_buffer;
mod spaces;
pub(crate) mod stats;
mod streams;

use spaces::Retransmits;
use streams::StreamsState;
pub(crate) use streams::{ClosedStream, ShouldTransmit};

pub(crate) mod drive;

pub struct State;

impl State {
    fn is_closed(&self) -> bool {
        false
    }
}
