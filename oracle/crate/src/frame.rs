// Data carriers of ours under the names that the Rust imports. Nothing is encoded: no frame leaves
// the oracle.
use bytes::{Buf, BufMut, Bytes};
use std::{fmt, ops::Range};

use crate::{ConnectionId, Dir, ResetToken, StreamId, VarInt, coding};

macro_rules! kinds {
    ($($name:ident = $n:expr),*) => { impl FrameType { $(pub const $name: Self = Self($n);)* } };
}

#[derive(Copy, Clone, PartialEq, Eq, Debug)]
pub struct FrameType(u64);
/// The older crate's name of it
pub type Type = FrameType;

kinds!(
    RESET_STREAM = 4, STOP_SENDING = 5, MAX_DATA = 16, MAX_STREAM_DATA = 17, MAX_STREAMS_BIDI = 18,
    MAX_STREAMS_UNI = 19, DATA_BLOCKED = 20, STREAM_DATA_BLOCKED = 21
);

impl coding::Codec for FrameType {
    fn decode<B: Buf>(_: &mut B) -> coding::Result<Self> {
        Err(coding::UnexpectedEnd)
    }
    fn encode<B: BufMut>(&self, _: &mut B) {}
}

impl fmt::Display for FrameType {
    fn fmt(&self, f: &mut fmt::Formatter<'_>) -> fmt::Result {
        write!(f, "type {}", self.0)
    }
}

pub(crate) trait FrameStruct {
    const SIZE_BOUND: usize = 25;
}

#[derive(Debug, Clone)]
pub struct Stream {
    pub(crate) id: StreamId,
    pub(crate) offset: u64,
    pub(crate) fin: bool,
    pub(crate) data: Bytes,
}

#[derive(Debug, Copy, Clone)]
pub struct ResetStream {
    pub(crate) id: StreamId,
    pub(crate) error_code: VarInt,
    pub(crate) final_offset: VarInt,
}

#[derive(Debug, Copy, Clone)]
pub struct StopSending {
    pub(crate) id: StreamId,
    pub(crate) error_code: VarInt,
}

#[derive(Debug, Copy, Clone)]
pub(crate) struct NewConnectionId {
    pub(crate) sequence: u64,
    pub(crate) retire_prior_to: u64,
    pub(crate) id: ConnectionId,
    pub(crate) reset_token: ResetToken,
}

#[derive(Debug, Copy, Clone, PartialEq, Eq, Default)]
pub struct EcnCounts {
    pub ect0: u64,
    pub ect1: u64,
    pub ce: u64,
}

impl EcnCounts {
    pub const ZERO: Self = Self { ect0: 0, ect1: 0, ce: 0 };
}

#[derive(Debug, Copy, Clone)]
pub(crate) struct AckFrequency {
    pub(crate) ack_eliciting_threshold: VarInt,
    pub(crate) reordering_threshold: VarInt,
}

#[derive(Debug, Clone)]
pub struct Crypto {
    pub(crate) offset: u64,
    pub(crate) data: Bytes,
}

#[derive(Debug, Clone)]
pub struct StreamMeta {
    pub(crate) id: StreamId,
    pub(crate) offsets: Range<u64>,
    pub(crate) fin: bool,
}

impl Default for StreamMeta {
    fn default() -> Self {
        Self { id: StreamId(0), offsets: 0..0, fin: false }
    }
}

pub type StreamMetaVec = tinyvec::TinyVec<[StreamMeta; 1]>;

impl FrameStruct for Stream {}
impl FrameStruct for ResetStream {}
impl FrameStruct for StopSending {}

impl ResetStream {
    pub(crate) fn encode<W: BufMut>(&self, _: &mut W) {}
}
impl StopSending {
    pub(crate) fn encode<W: BufMut>(&self, _: &mut W) {}
}
impl StreamMeta {
    pub(crate) fn encode<W: BufMut>(&self, _length: bool, _: &mut W) {}
}

// stats.rs counts frames by their kind; the oracle counts none
pub(crate) enum Frame {
    Padding,
    Ping,
    Ack(()),
    ResetStream(ResetStream),
    StopSending(StopSending),
    Crypto(Crypto),
    NewToken(()),
    Stream(Stream),
    MaxData(VarInt),
    MaxStreamData { id: StreamId, offset: u64 },
    MaxStreams { dir: Dir, count: u64 },
    DataBlocked { offset: u64 },
    StreamDataBlocked { id: StreamId, offset: u64 },
    StreamsBlocked { dir: Dir, limit: u64 },
    NewConnectionId(NewConnectionId),
    RetireConnectionId { sequence: u64 },
    PathChallenge(u64),
    PathResponse(u64),
    Close(()),
    Datagram(()),
    AckFrequency(AckFrequency),
    ImmediateAck,
    HandshakeDone,
}
