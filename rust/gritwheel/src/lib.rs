//! Gritwheel for Rust: replay packets split into bunches, fragments joined channel by channel, records walked.
//!
//! A safe crate over Gritwheel's library, each of whose functions is proved to answer what its paper ("document 01") says. Names
//! and shapes here are those of the Rust repository vrfkit, which the paper goes by. That the library answers as vrfkit does was
//! compared by runs of both and is not proved; docs/DIFFERENCES.md in Gritwheel's repository has the runs, and where the two
//! differ. This crate itself is not proved: it owns the memory that the library is lent, hands it over and names the answers.
//!
//! - [`BitReader`]: numbers from bits.
//! - [`RawPacketReader`]: a packet's bunches, one after the other.
//! - [`PartialBunchAccumulator`]: fragments joined to messages.
//! - [`field`]: the records of a payload.
//! - [`PacketWriter`], [`PacketLog`]: packets made, and kept in a file.
//!
//! Every call of the library ends on all input and refuses what is bad; the crate hands that on as an [`Error`]. That the crate
//! around these calls doesn't panic is not proved.
//!
//! # From packets to messages
//!
//! The accumulator goes by sequences, and knows of no channel that it was closed or opened. After a close that isn't dormant the
//! reader counts the channel's sequences anew, so a fragment of the channel's next life may have just the number that a message of
//! the life before waits for. A program that joins messages has to see to this, as the one below does:
//!
//! - It retires a channel before a bunch that opens it, and after one that closes it and isn't dormant.
//! - It hands in fragments alone (`b_partial`), with the reader's flags cleared. Any other bunch is a message itself; handed in,
//!   it would be judged as a continuation, and join or displace what is held.
//! - It takes a finished message at once, and tells what retiring, displacing and the log's end leave unfinished: that is lost.
//!
//! What it can't see: the reader takes packets in the order in which it is given them, and a reliable bunch has no sequence in its
//! packet, the reader counts it. So on a reliable channel packets that are missing, there twice or in another order leave no gap:
//! a message is joined without a middle fragment, with one twice, with two exchanged, or of the halves of two messages. An
//! unreliable fragment has its packet's id as its sequence: there a gap in the ids is refused, but a middle fragment that is there
//! twice is joined twice. Nothing else speaks of such packets but their ids.
//!
//! ```no_run
#![doc = include_str!("../examples/joining.rs")]
//! ```
#![deny(unsafe_code)]

pub mod bitio;
pub mod bunch;
mod error;
mod ffi;
pub mod field;
pub mod log;
pub mod packet;
pub mod types;
pub mod writer;

pub use bitio::BitReader;
pub use bunch::{PartialBunchAccumulator, PartialBunchResult, PreservedPartial};
pub use error::{Error, Result};
pub use log::{LogError, PacketLog};
pub use packet::{Bunch, PacketReadResult, RawPacketReader};
pub use types::{ChannelCloseReason, PartialSequenceKind, RawBunchHeader};
pub use writer::PacketWriter;
