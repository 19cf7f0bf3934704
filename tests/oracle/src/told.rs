//! The naive answers in the shape in which the port tells its own.
use crate::naive::{Entry, Header, Key, Numbers};
use crate::port::{Built, Checked, EntryRead, Size};

pub fn checked(r: Result<Header, u64>) -> Checked {
    match r {
        Ok(h) => Checked {
            refusal: 0,
            number: h.number as u64,
            n: h.n as u64,
            m: h.m as u64,
            q: h.q as u64,
            bits: h.bits as u64,
        },
        Err(refusal) => Checked {
            refusal,
            ..Default::default()
        },
    }
}

/// The answer, and the key's buffer afterwards.
pub fn entry(r: Result<Entry, u64>, was: &Key) -> (EntryRead, Key) {
    let (refusal, key) = written(r.map(|e| e.key), was);
    let pointer = r.map_or(0, |e| e.pointer as u64);
    (EntryRead { refusal, pointer }, key)
}

pub fn size(r: Result<u64, u64>) -> Size {
    Size {
        refusal: r.err().unwrap_or(0),
        value: r.unwrap_or(0),
    }
}

pub fn built(r: Result<Numbers, u64>) -> Built {
    match r {
        Ok(x) => Built {
            refusal: 0,
            n: x.n as u64,
            m: x.m as u64,
            q: x.q as u64,
            bits: x.bits as u64,
            undo: x.undo as u64,
        },
        Err(refusal) => Built {
            refusal,
            ..Default::default()
        },
    }
}

/// The number, and the buffer afterwards.
pub fn written(r: Result<Key, u64>, was: &Key) -> (u64, Key) {
    (r.err().unwrap_or(0), r.unwrap_or(*was))
}
