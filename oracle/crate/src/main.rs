//! The Rust original, driven by the replayer's events (docs/EVENTS.md) and printing the replayer's lines.
//! What the Rust doesn't refuse, this doesn't refuse: events are to stay inside the limits. A panic prints PANIC.
#![allow(dead_code, unused_imports, unused_macros, unreachable_pub, private_interfaces, unexpected_cfgs)]

use std::{
    fmt,
    io::{self, BufRead, BufWriter, Read, Write},
    net::{IpAddr, SocketAddr},
    ops,
    panic::{AssertUnwindSafe, catch_unwind},
};

mod cid_queue;
pub mod coding;
mod config;
mod connection;
mod constant_time;
pub mod crypto;
mod frame;
mod packet;
mod range_set;
mod shared;
mod token;
mod toks;
mod transport_error;
pub mod transport_parameters;
mod varint;

use config::MtuDiscoveryConfig;
pub(crate) use shared::{ConnectionId, EcnCodepoint};
pub(crate) use std::time::{Duration, Instant, SystemTime, UNIX_EPOCH};
use token::ResetToken;
pub use transport_error::{Code as TransportErrorCode, Error as TransportError};
pub use varint::{VarInt, VarIntBoundsExceeded};

// Side, Dir, StreamId and the constants: the end of lib.rs, unchanged
include!("lib_tail.quinn.rs");

use cid_queue::{CidQueue, InsertError};
use packet::PacketNumber;
use range_set::{ArrayRangeSet, RangeSet};
use toks::{Ans, Toks};

pub(crate) fn hex(b: &[u8]) -> String {
    if b.is_empty() {
        return "-".into();
    }
    b.iter().map(|x| format!("{x:02x}")).collect()
}

pub(crate) fn list(it: impl Iterator<Item = ops::Range<u64>>) -> String {
    let v: Vec<String> = it.map(|r| format!("{}..{}", r.start, r.end)).collect();
    if v.is_empty() { "-".into() } else { v.join(" ") }
}

/// The answers that the Rust's own answers stand for
pub(crate) const OK: &str = "0 OK";
pub(crate) const SHORT: &str = "1 SHORT";
pub(crate) const RANGE: &str = "2 RANGE";
pub(crate) const MALFORMED: &str = "3 MALFORMED";
pub(crate) const ORDER: &str = "6 ORDER";
pub(crate) const FLOW: &str = "7 FLOW";
pub(crate) const FINAL: &str = "8 FINAL";
pub(crate) const LIMIT: &str = "9 LIMIT";
pub(crate) const STATE: &str = "10 STATE";
pub(crate) const RETIRED: &str = "12 RETIRED";

pub(crate) fn yes(b: bool) -> String {
    format!("{OK} {}", b as u8)
}

fn some<T: fmt::Display>(x: Option<T>) -> String {
    x.map_or(ORDER.into(), |x| format!("{OK} {x}"))
}

fn range(x: Option<ops::Range<u64>>) -> String {
    x.map_or(ORDER.into(), |r| format!("{OK} {}..{}", r.start, r.end))
}

struct World {
    array: bool,
    rs: RangeSet,
    ars: ArrayRangeSet,
    cq: Option<CidQueue>,
    conn: connection::drive::Conn,
}

impl World {
    fn new(array: bool) -> Self {
        Self {
            array,
            rs: RangeSet::new(),
            ars: ArrayRangeSet::new(),
            cq: None,
            conn: connection::drive::Conn::new(),
        }
    }

    fn event(&mut self, line: &str) -> Ans<String> {
        let mut t = Toks::new(line);
        let (module, op) = t.word()?.split_once('.').ok_or("module.operation expected")?;
        match module {
            "ct" => Self::ct(op, &mut t),
            "vi" => Self::vi(op, &mut t),
            "rs" if self.array => self.array_set(op, &mut t),
            "rs" => self.set(op, &mut t),
            "pn" => Self::pn(op, &mut t),
            "cq" => self.cq(op, &mut t),
            "dd" => self.conn.dd(op, &mut t),
            "pa" => self.conn.pa(op, &mut t),
            "mt" => self.conn.mt(op, &mut t),
            "st" => self.conn.st(op, &mut t),
            _ => Err(format!("no module {module}")),
        }
    }

    fn ct(op: &str, t: &mut Toks) -> Ans<String> {
        if op != "eq" {
            return Err("unknown event".into());
        }
        let (a, b) = (t.bytes()?, t.bytes()?);
        t.end()?;
        Ok(yes(constant_time::eq(&a, &b)))
    }

    /// Varints as quinn-proto 0.9.2 has them: 0.11.19's varint.rs is not to be had
    fn vi(op: &str, t: &mut Toks) -> Ans<String> {
        use coding::Codec;
        match op {
            "dec" => {
                let b = t.bytes()?;
                t.end()?;
                let mut rest = &b[..];
                Ok(match VarInt::decode(&mut rest) {
                    Ok(v) => format!("{OK} {} {}", v.into_inner(), b.len() - rest.len()),
                    Err(_) => SHORT.into(),
                })
            }
            "enc" => Ok(match VarInt::from_u64(t.num_last()?) {
                Ok(v) => {
                    let mut w = Vec::new();
                    v.encode(&mut w);
                    format!("{OK} {}", hex(&w))
                }
                Err(_) => RANGE.into(),
            }),
            _ => Err("unknown event".into()),
        }
    }

    fn pairs(t: &mut Toks) -> Ans<Vec<ops::Range<u64>>> {
        let mut v = vec![];
        while let Some(w) = t.maybe() {
            let a = Toks::new(w).num()?;
            v.push(a..t.num()?);
        }
        Ok(v)
    }

    fn set(&mut self, op: &str, t: &mut Toks) -> Ans<String> {
        let s = &mut self.rs;
        let a: String = match op {
            "new" => {
                let parts = Self::pairs(t)?;
                *s = RangeSet::new();
                parts.into_iter().for_each(|r| {
                    s.insert(r);
                });
                OK.into()
            }
            // the Rust's set has no places to run out of
            "cap" => {
                (t.num()?, t.num_last()?);
                *s = RangeSet::new();
                OK.into()
            }
            "contains" => yes(s.contains(t.num_last()?)),
            "one" => yes(s.insert_one(t.num_last()?)),
            "insert" => yes(s.insert(t.num()?..t.num_last()?)),
            "remove" => yes(s.remove(t.num()?..t.num_last()?)),
            "replace" => {
                // the insertion happens once the iterator is dropped
                let parts: Vec<_> = s.replace(t.num()?..t.num_last()?).collect();
                format!("{OK} {}", list(parts.into_iter()))
            }
            "add" | "sub" => {
                let mut o = RangeSet::new();
                for r in Self::pairs(t)? {
                    o.insert(r);
                }
                let before = list(s.iter());
                if op == "add" { s.add(&o) } else { s.subtract(&o) }
                yes(before != list(s.iter()))
            }
            "min" => some(s.min()),
            "max" => some(s.max()),
            "len" => format!("{OK} {}", s.len()),
            "pop" => range(s.pop_min()),
            _ => return Err("unknown event".into()),
        };
        Ok(format!("{a} | {}", list(s.iter())))
    }

    /// The same events on the array set, which has no replace and no add
    fn array_set(&mut self, op: &str, t: &mut Toks) -> Ans<String> {
        let s = &mut self.ars;
        let a: String = match op {
            "new" => {
                let parts = Self::pairs(t)?;
                *s = ArrayRangeSet::new();
                parts.into_iter().for_each(|r| {
                    s.insert(r);
                });
                OK.into()
            }
            "contains" => yes(s.contains(t.num_last()?)),
            "one" => yes(s.insert_one(t.num_last()?)),
            "insert" => yes(s.insert(t.num()?..t.num_last()?)),
            "remove" => yes(s.remove(t.num()?..t.num_last()?)),
            "sub" => {
                let mut o = ArrayRangeSet::new();
                for r in Self::pairs(t)? {
                    o.insert(r);
                }
                let before = list(s.iter());
                s.subtract(&o);
                yes(before != list(s.iter()))
            }
            "min" => some(s.min()),
            "max" => some(s.max()),
            "len" => format!("{OK} {}", s.len()),
            "pop" => range(s.pop_min()),
            _ => return Err("unknown event".into()),
        };
        Ok(format!("{a} | {}", list(s.iter())))
    }

    fn pn(op: &str, t: &mut Toks) -> Ans<String> {
        match op {
            "new" => {
                let p = PacketNumber::new(t.num()?, t.num_last()?);
                let mut w = Vec::new();
                p.encode(&mut w);
                Ok(format!("{OK} {} {}", p.len(), hex(&w)))
            }
            // the Rust is given what it expects next, the largest received + 1
            "read" => {
                let b = t.bytes()?;
                let expected = t.num_last()? + 1;
                Ok(match PacketNumber::decode(b.len(), &mut &b[..]) {
                    Ok(p) => format!("{OK} {}", p.expand(expected)),
                    Err(_) => SHORT.into(),
                })
            }
            _ => Err("unknown event".into()),
        }
    }

    fn cq(&mut self, op: &str, t: &mut Toks) -> Ans<String> {
        let word16 = |b: Vec<u8>| -> Ans<[u8; RESET_TOKEN_SIZE]> {
            b.try_into().map_err(|_| "token of 16 bytes".into())
        };
        if op == "new" {
            let c = t.bytes()?;
            t.end()?;
            let q = CidQueue::new(ConnectionId::new(&c));
            let a = format!("{OK} | {}", q.view());
            self.cq = Some(q);
            return Ok(a);
        }
        let Some(q) = &mut self.cq else {
            return Ok(format!("{ORDER} | -"));
        };
        let a: String = match op {
            "frame" => {
                let (sequence, retire_prior_to) = (t.num()?, t.num()?);
                let (id, token) = (t.bytes()?, word16(t.bytes()?)?);
                t.end()?;
                // this check is the caller's in the Rust (connection/mod.rs)
                if retire_prior_to > sequence {
                    MALFORMED.into()
                } else {
                    match q.insert(frame::NewConnectionId {
                        sequence,
                        retire_prior_to,
                        id: ConnectionId::new(&id),
                        reset_token: token.into(),
                    }) {
                        Ok(None) => OK.into(),
                        Ok(Some((r, token))) => {
                            format!("{OK} {}..{} {token}", r.start, r.end)
                        }
                        Err(InsertError::Retired) => RETIRED.into(),
                        Err(InsertError::ExceedsLimit) => LIMIT.into(),
                    }
                }
            }
            "next" => {
                t.end()?;
                match q.next() {
                    None => ORDER.into(),
                    Some((token, r)) => format!("{OK} {}..{} {token}", r.start, r.end),
                }
            }
            "active" => {
                t.end()?;
                format!("{OK} {} {}", q.active_seq(), hex(&q.active()))
            }
            "reset" => {
                let token = word16(t.bytes()?)?;
                t.end()?;
                yes(q.is_active_token(token.into()))
            }
            "update" => {
                let c = t.bytes()?;
                t.end()?;
                q.update_initial_cid(ConnectionId::new(&c));
                OK.into()
            }
            _ => return Err("unknown event".into()),
        };
        Ok(format!("{a} | {}", q.view()))
    }
}

fn main() -> io::Result<()> {
    let (mut array, mut talk, mut file) = (false, false, None);
    for a in std::env::args().skip(1) {
        match a.as_str() {
            "--array" => array = true,
            "--talk" => talk = true,
            _ => file = Some(a),
        }
    }
    std::panic::set_hook(Box::new(|_| ()));
    let input: Box<dyn BufRead> = match file {
        Some(f) => Box::new(io::BufReader::new(std::fs::File::open(f)?)),
        None => Box::new(io::BufReader::new(io::stdin())),
    };
    let mut out = BufWriter::new(io::stdout().lock());
    let mut w = World::new(array);
    for line in input.lines() {
        let line = line?;
        let event = line.split('#').next().unwrap().trim();
        if event.is_empty() {
            continue;
        }
        let answer = match catch_unwind(AssertUnwindSafe(|| w.event(event))) {
            Ok(Ok(s)) => s,
            Ok(Err(e)) => format!("?? {e}"),
            Err(_) => "PANIC".into(),
        };
        writeln!(out, "{answer}")?;
        if talk {
            out.flush()?;
        }
    }
    out.flush()
}
