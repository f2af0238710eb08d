//! Events for what lives under `connection`: dd, pa, mt, st.
use bytes::Bytes;

use super::{
    Retransmits, State, StreamsState,
    mtud::MtuDiscovery,
    spaces::{Dedup, PendingAcks, ThinRetransmits},
    stats::FrameStats,
    streams::{ReadError, ReadableError, RecvStream, SendStream, Streams},
};
use crate::{
    Dir, Duration, FINAL, FLOW, Instant, LIMIT, MALFORMED, MtuDiscoveryConfig, OK, ORDER, STATE,
    Side, StreamId, TransportError, TransportErrorCode, VarInt, frame,
    packet::SpaceId,
    toks::{Ans, Toks},
    yes,
};

static ZEROS: [u8; 1 << 20] = [0; 1 << 20];

pub(crate) struct Conn {
    base: Instant,
    dd: Dedup,
    pa: PendingAcks,
    mt: Option<MtuDiscovery>,
    st: Option<StreamsState>,
    pend: Retransmits,
}

fn vi(x: u64) -> Ans<VarInt> {
    VarInt::from_u64(x).map_err(|_| format!("{x} is above 2^62-1"))
}

fn sid(t: &mut Toks) -> Ans<StreamId> {
    Ok(StreamId(vi(t.num()?)?.into_inner()))
}

fn dir(t: &mut Toks) -> Ans<Dir> {
    match t.word()? {
        "bi" => Ok(Dir::Bi),
        "uni" => Ok(Dir::Uni),
        w => Err(format!("bi or uni, not {w}")),
    }
}

/// The table's answer for a transport error
fn name(e: TransportError) -> String {
    match e.code {
        TransportErrorCode::FLOW_CONTROL_ERROR => FLOW.into(),
        TransportErrorCode::FINAL_SIZE_ERROR => FINAL.into(),
        TransportErrorCode::STREAM_LIMIT_ERROR => LIMIT.into(),
        TransportErrorCode::STREAM_STATE_ERROR => STATE.into(),
        TransportErrorCode::FRAME_ENCODING_ERROR => MALFORMED.into(),
        c => format!("{c:?}"),
    }
}

impl Conn {
    pub(crate) fn new() -> Self {
        Self {
            base: Instant::now(),
            dd: Dedup::new(),
            pa: PendingAcks::fresh(),
            mt: None,
            st: None,
            pend: Retransmits::default(),
        }
    }

    pub(crate) fn dd(&mut self, op: &str, t: &mut Toks) -> Ans<String> {
        let a = match op {
            "new" => {
                t.end()?;
                self.dd = Dedup::new();
                OK.into()
            }
            "insert" => yes(self.dd.insert(t.num_last()?)),
            _ => return Err("unknown event".into()),
        };
        Ok(format!("{a} | {}", self.dd.view()))
    }

    pub(crate) fn pa(&mut self, op: &str, t: &mut Toks) -> Ans<String> {
        let a = match op {
            "new" => {
                t.end()?;
                self.pa = PendingAcks::fresh();
                OK.into()
            }
            "insert" => {
                let n = t.num_last()?;
                let held = self.pa.holds(n);
                self.pa.insert_one(n, self.base);
                yes(!held)
            }
            "below" => {
                let before = self.pa.view();
                self.pa.subtract_below(t.num_last()?);
                yes(before != self.pa.view())
            }
            _ => return Err("unknown event".into()),
        };
        Ok(format!("{a} | {}", self.pa.view()))
    }

    pub(crate) fn mt(&mut self, op: &str, t: &mut Toks) -> Ans<String> {
        let base = self.base;
        let at = |us: u64| base + Duration::from_micros(us);
        match op {
            "new" => {
                let (initial, min) = (t.u16()?, t.u16()?);
                let peer = t.opt_u16()?;
                let (upper_bound, minimum_change) = (t.u16()?, t.u16()?);
                let (interval, cooldown) = (t.num()?, t.num_last()?);
                let config = MtuDiscoveryConfig {
                    interval: Duration::from_micros(interval),
                    upper_bound,
                    minimum_change,
                    black_hole_cooldown: Duration::from_micros(cooldown),
                };
                let m = MtuDiscovery::new(initial, min, peer, config);
                let a = format!("{OK} | {}", m.view(base));
                self.mt = Some(m);
                return Ok(a);
            }
            "off" => {
                let (size, min) = (t.u16()?, t.u16()?);
                t.end()?;
                let m = MtuDiscovery::disabled(size, min);
                let a = format!("{OK} | {}", m.view(base));
                self.mt = Some(m);
                return Ok(a);
            }
            _ => (),
        }
        let Some(m) = &mut self.mt else {
            return Ok(format!("{ORDER} | -"));
        };
        let a: String = match op {
            "reset" => {
                let (size, min) = (t.u16()?, t.u16()?);
                t.end()?;
                m.reset(size, min);
                OK.into()
            }
            "poll" => {
                let (now, number) = (t.num()?, t.num_last()?);
                format!("{OK} {}", m.poll_transmit(at(now), number).unwrap_or(0))
            }
            "peer" => {
                let size = t.u16()?;
                t.end()?;
                m.on_peer_max_udp_payload_size_received(size);
                OK.into()
            }
            "ack" => {
                let (number, size) = (t.num()?, t.u16()?);
                t.end()?;
                yes(m.on_acked(SpaceId::Data, number, size))
            }
            "plost" => {
                t.end()?;
                m.on_probe_lost();
                OK.into()
            }
            "lost" => {
                let (number, size) = (t.num()?, t.u16()?);
                t.end()?;
                m.on_non_probe_lost(number, size);
                OK.into()
            }
            "hole" => yes(m.black_hole_detected(at(t.num_last()?))),
            _ => return Err("unknown event".into()),
        };
        Ok(format!("{a} | {}", m.view(base)))
    }

    pub(crate) fn st(&mut self, op: &str, t: &mut Toks) -> Ans<String> {
        if op == "new" {
            let side = match t.word()? {
                "client" => Side::Client,
                "server" => Side::Server,
                w => return Err(format!("client or server, not {w}")),
            };
            let (bi, uni) = (vi(t.num()?)?, vi(t.num()?)?);
            let (window, stream_window) = (vi(t.num()?)?, vi(t.num_last()?)?);
            if bi.into_inner() > 100_000 || uni.into_inner() > 100_000 {
                return Err("more streams than the oracle has memory for".into());
            }
            let s = StreamsState::new(side, uni, bi, 1 << 40, window, stream_window);
            let a = format!("{OK} | #- | {}", s.view());
            self.st = Some(s);
            self.pend = Retransmits::default();
            return Ok(a);
        }
        let Some(s) = &mut self.st else {
            return Ok(format!("{ORDER} | -"));
        };
        let before = s.sums();
        let mut about = None;
        let mut a = match op {
            "data" | "reset" | "stop" | "read" | "seen" | "announce" | "sent" => {
                let id = sid(t)?;
                about = Some(id);
                one(s, &mut self.pend, op, id, t)?
            }
            _ => whole(s, op, t, &mut about)?,
        };
        let after = s.sums();
        if a.starts_with(OK) {
            let charge = after.charged.wrapping_sub(before.charged);
            // credit pays the debt first
            let credit = (after.grant.wrapping_sub(before.grant)).wrapping_add(before.debt.wrapping_sub(after.debt));
            match op {
                "data" | "reset" => a = format!("{OK} {charge} {credit}"),
                "stop" => a = format!("{OK} {charge} {credit}{}", &a[OK.len()..]),
                "read" => a = format!("{OK} {credit}"),
                "want" => {
                    let grown: u64 = (0..2).map(|d| after.ralloc[d] - before.ralloc[d]).sum();
                    a = format!("{OK} {grown}")
                }
                "zrej" => a = format!("{OK} {}", before.places - after.places),
                _ => (),
            }
        }
        let stream = match about {
            Some(id) => format!("#{} {}", u64::from(id), s.view_stream(id)),
            None => "#-".into(),
        };
        Ok(format!("{a} | {stream} | {}", s.view()))
    }
}

/// For ClosedStream, which the Rust says to the application in every case: what its check of a frame says of the id, else ORDER
fn closed(s: &mut StreamsState, id: StreamId) -> String {
    s.barred(id).map_or(ORDER.into(), name)
}

/// An event that names a stream.
fn one(s: &mut StreamsState, pend: &mut Retransmits, op: &str, id: StreamId, t: &mut Toks) -> Ans<String> {
    Ok(match op {
        "data" => {
            let (offset, len) = (t.num()?, t.num()?);
            let fin = t.flag()?;
            t.end()?;
            if len > ZEROS.len() as u64 {
                return Err("data longer than 2^20".into());
            }
            let data = Bytes::from_static(&ZEROS[..len as usize]);
            match s.received(frame::Stream { id, offset, fin, data }, len as usize) {
                Ok(_) => OK.into(),
                Err(e) => name(e),
            }
        }
        "reset" => {
            let final_offset = vi(t.num_last()?)?;
            match s.received_reset(frame::ResetStream { id, error_code: vi(7)?, final_offset }) {
                Ok(_) => OK.into(),
                Err(e) => name(e),
            }
        }
        "stop" => {
            t.end()?;
            let before = pend.stop_sending.len();
            match (RecvStream { id, state: s, pending: pend }).stop(vi(9)?) {
                Ok(()) => format!("{OK} {}", pend.stop_sending.len() - before),
                Err(_) => closed(s, id),
            }
        }
        // exactly n bytes, or none where the stream has fewer
        "read" => {
            let n = t.num_last()?;
            match s.unread(id) {
                Some(has) if n <= has => (),
                _ => return Ok(closed(s, id)),
            }
            let mut got = 0;
            let mut r = RecvStream { id, state: s, pending: pend };
            let Ok(mut chunks) = r.read(true) else {
                return Ok(ORDER.into());
            };
            while got < n {
                match chunks.next((n - got) as usize) {
                    Ok(Some(c)) => got += c.bytes.len() as u64,
                    _ => return Err("a hole in the data: not an event that compares".into()),
                }
            }
            let _ = chunks.finalize();
            OK.into()
        }
        // the application asks for nothing and so learns whether the stream is at its end
        "seen" => {
            t.end()?;
            let mut r = RecvStream { id, state: s, pending: pend };
            let Ok(mut chunks) = r.read(true) else {
                return Ok(closed(s, id));
            };
            let n = match chunks.next(0) {
                Ok(Some(_)) | Err(ReadError::Blocked) => 0,
                Ok(None) => 1,
                Err(ReadError::Reset(_)) => 2,
            };
            let _ = chunks.finalize();
            format!("{OK} {n}")
        }
        "announce" => {
            t.end()?;
            if s.limit(id).is_none() {
                return Ok(closed(s, id));
            }
            let mut only = Retransmits::default();
            only.max_stream_data.insert(id);
            let (mut thin, mut stats) = (ThinRetransmits::default(), FrameStats::default());
            s.write_control_frames(&mut Vec::new(), &mut only, &mut thin, &mut stats, 1 << 20);
            format!("{OK} {}", s.limit(id).unwrap_or(0))
        }
        // our sending half: reset, and the reset acknowledged; the application has to know the stream
        "sent" => {
            t.end()?;
            if id.initiator() != s.side() && id.dir() == Dir::Bi {
                while s.untold(id) && (Streams { state: s, conn_state: &State }).accept(Dir::Bi).is_some() {}
                if s.untold(id) {
                    return Err("a stream that the peer has not used: not an event that compares".into());
                }
            }
            let reset = SendStream { id, state: s, pending: pend, conn_state: &State }.reset(vi(5)?);
            pend.reset_stream.clear();
            s.reset_acked(id);
            if reset.is_ok() { OK.into() } else { closed(s, id) }
        }
        _ => return Err("unknown event".into()),
    })
}

/// An event of the connection
fn whole(s: &mut StreamsState, op: &str, t: &mut Toks, about: &mut Option<StreamId>) -> Ans<String> {
    Ok(match op {
        "open" => {
            let d = dir(t)?;
            t.end()?;
            *about = Streams { state: s, conn_state: &State }.open(d);
            about.map_or(LIMIT.into(), |id| format!("{OK} {}", u64::from(id)))
        }
        "want" => {
            let d = dir(t)?;
            let n = t.num_last()?;
            // the Rust would insert every stream
            if n.saturating_sub(s.max_concurrent(d)) > 1_000_000 {
                return Err("more streams than the oracle has memory for".into());
            }
            s.set_max_concurrent(d, vi(n)?);
            OK.into()
        }
        "maxstreams" => match s.received_max_streams(dir(t)?, t.num_last()?) {
            Ok(()) => OK.into(),
            Err(e) => name(e),
        },
        "credit" => {
            s.credit(t.num_last()?);
            OK.into()
        }
        "window" => yes(s.set_receive_window(vi(t.num_last()?)?)),
        "zrej" => {
            t.end()?;
            s.zero_rtt_rejected();
            OK.into()
        }
        _ => return Err("unknown event".into()),
    })
}
