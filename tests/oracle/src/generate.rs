//! Keys, pages and records at random, from a seed: long and short, on their limits, loose, damaged.
use crate::naive::{self, Edit, Entry, Key, BODY, PAGE};

/// xorshift64*, never 0.
pub struct Random(u64);

impl Random {
    pub fn new(seed: u64) -> Random {
        let mut r = Random(seed.wrapping_mul(0x9e37_79b9_7f4a_7c15) | 1);
        for _ in 0..8 {
            r.next();
        }
        r
    }

    pub fn next(&mut self) -> u64 {
        self.0 ^= self.0 >> 12;
        self.0 ^= self.0 << 25;
        self.0 ^= self.0 >> 27;
        self.0.wrapping_mul(0x2545_f491_4f6c_dd1d)
    }

    /// Below n, which is not 0.
    pub fn below(&mut self, n: usize) -> usize {
        ((self.next() >> 16) % n as u64) as usize
    }

    /// From a to b, both among them.
    pub fn from_to(&mut self, a: usize, b: usize) -> usize {
        a + self.below(b - a + 1)
    }

    /// Once in n.
    pub fn once_in(&mut self, n: usize) -> bool {
        self.below(n) == 0
    }

    pub fn pick<T: Copy>(&mut self, of: &[T]) -> T {
        of[self.below(of.len())]
    }

    pub fn bytes(&mut self, n: usize) -> Vec<u8> {
        (0..n).map(|_| (self.next() >> 32) as u8).collect()
    }

    /// A 64-bit number: small, near a power of two, near the top, or any.
    pub fn number(&mut self) -> u64 {
        match self.below(6) {
            0 => self.below(10) as u64,
            1 => self.below(1000) as u64,
            2 => (1u64 << self.below(64))
                .wrapping_add(self.below(5) as u64)
                .wrapping_sub(2),
            3 => u64::MAX - self.below(4) as u64,
            4 => u64::MAX / (1 + self.below(9) as u64),
            _ => self.next(),
        }
    }
}

// ---- keys

/// Zero bits from `len` on.
pub fn cut(key: &mut Key, len: usize) {
    for i in len..256 {
        key[i / 8] &= !(128 >> (i % 8));
    }
}

// the first bits of another key
fn share(key: &mut Key, other: &Key, bits: usize) {
    for i in 0..bits {
        let mask = 128 >> (i % 8);
        key[i / 8] = key[i / 8] & !mask | other[i / 8] & mask;
    }
}

pub fn key(r: &mut Random) -> Key {
    let mut k: Key = r.bytes(32).try_into().unwrap();
    match r.below(8) {
        0 => {}
        1 => k = [0; 32],
        2 | 3 => cut(&mut k, r.below(257)),
        4 => {
            k = [0; 32];
            let i = r.below(256);
            k[i / 8] = 128 >> (i % 8);
        }
        5 => {
            k = [255; 32];
            cut(&mut k, r.below(257))
        }
        6 => {
            k = [0; 32];
            k[31] = r.next() as u8;
        }
        _ => cut(&mut k, r.below(20)),
    }
    k
}

/// A key that shares bits with another, often many.
pub fn key_near(r: &mut Random, k: &Key) -> Key {
    let mut near = key(r);
    share(&mut near, k, r.below(257));
    near
}

/// Ascending keys, at most n: most of them under one prefix, of up to `most` bits behind it.
pub fn keys(r: &mut Random, n: usize) -> Vec<Key> {
    let prefix = key(r);
    let shared = r.pick(&[0, 0, 1, 3, 7, 8, 9, 17, 64, 65, 100, 200, 240]);
    let most = r.pick(&[9, 10, 12, 14, 18, 24, 40, 64, 120, 256]);
    let under = r.pick(&[100, 100, 95, 80, 50, 0]);
    let mut all: Vec<Key> = (0..n)
        .map(|_| {
            let mut k: Key = r.bytes(32).try_into().unwrap();
            let mut from = 0;
            if r.below(100) < under {
                share(&mut k, &prefix, shared);
                from = shared;
            }
            let len = if r.once_in(3) {
                most
            } else {
                r.below(most + 1)
            };
            cut(&mut k, (from + len).min(256));
            k
        })
        .collect();
    all.sort();
    all.dedup();
    all
}

pub fn entries(r: &mut Random, keys: &[Key]) -> Vec<Entry> {
    keys.iter()
        .map(|k| Entry {
            key: *k,
            pointer: r.number() as u32,
        })
        .collect()
}

/// At least one entry, and as many as have room.
pub fn fitting(r: &mut Random, most: usize) -> Vec<Entry> {
    let k = keys(r, most);
    let all = entries(r, &k);
    all[..room_for(&all)].to_vec()
}

/// How many of the first entries have room on a page, one at least.
pub fn room_for(all: &[Entry]) -> usize {
    let (mut good, mut bad) = (1, all.len() + 1);
    while good + 1 < bad {
        let mid = (good + bad) / 2;
        if naive::fits(&all[..mid]) {
            good = mid;
        } else {
            bad = mid;
        }
    }
    good
}

/// How many entries to ask for: few, some, or more than any page has.
pub fn count(r: &mut Random) -> usize {
    match r.below(8) {
        0 => 1,
        1 => 2,
        2 | 3 => r.from_to(3, 8),
        4 | 5 => r.from_to(9, 60),
        6 => r.from_to(60, 300),
        _ => 700,
    }
}

// ---- pages

/// A page that 1 to 8 accept: normal, or with another choice, zero bits stored at the separators'
/// ends and any bits behind them.
pub fn page(r: &mut Random) -> Vec<u8> {
    let most = count(r);
    let all = fitting(r, most);
    page_of(r, &all)
}

pub fn page_of(r: &mut Random, all: &[Entry]) -> Vec<u8> {
    let number = r.number() as u32;
    let normal = naive::normal_page(number, all);
    if r.once_in(3) {
        return normal;
    }
    let keys = naive::keys_of(all);
    let shares = naive::shared_of_first(&keys);
    let lens = naive::lens_of(&keys);
    let mut c = naive::choice(&keys);
    if r.once_in(2) {
        let m = r.from_to(1, all.len());
        let q = if r.once_in(2) {
            shares[m - 1]
        } else {
            r.below(shares[m - 1] + 1)
        };
        let bits = naive::choice_bits(&lens, m, q);
        if naive::body_bytes(all.len(), bits) <= BODY {
            c = naive::Choice { m, q, bits };
        }
    }
    let mut stored: Vec<usize> = naive::stored(&lens, c.m, c.q).collect();
    // zero bits at the ends, to the brim at times
    let mut room = 8 * (BODY - 6 * all.len()) - c.bits;
    let turns = if r.once_in(3) {
        3 * all.len()
    } else {
        r.below(4)
    };
    for _ in 0..turns {
        let i = r.below(all.len());
        let has = stored[i] + if i < c.m { c.q } else { 0 };
        let more = r.below(257 - has).min(room);
        stored[i] += more;
        room -= more;
    }
    let mut page = naive::page_with(number, all, c.m, c.q, &stored);
    if r.once_in(2) {
        let end = 8 * (10 + 2 * all.len()) + c.q + stored.iter().sum::<usize>();
        for i in end..8 * (PAGE - 4 * all.len()) {
            if r.once_in(2) {
                page[i / 8] |= 128 >> (i % 8);
            }
        }
    }
    page
}

fn flip(bytes: &mut [u8], at: usize) {
    bytes[at / 8] ^= 128 >> (at % 8);
}

fn put16(bytes: &mut [u8], at: usize, x: u16) {
    bytes[at..at + 2].copy_from_slice(&x.to_le_bytes());
}

// a number of two bytes becomes greater by `more`
fn add16(bytes: &mut [u8], at: usize, more: u16) {
    let x = naive::le(&bytes[at..at + 2]) as u16;
    put16(bytes, at, x.wrapping_add(more));
}

/// The same, damaged in a few places; at times only a little.
pub fn damaged(r: &mut Random, page: &[u8]) -> Vec<u8> {
    let mut p = page.to_vec();
    let n = naive::le(&p[4..6]).max(1);
    for _ in 0..r.from_to(1, 3) {
        if p.len() < PAGE {
            break;
        }
        match r.below(10) {
            0 => flip(&mut p, r.below(80)),
            1 => flip(&mut p[10..], r.below(16 * n.min(2000))),
            2 => flip(&mut p, r.below(8 * PAGE)),
            3 => {
                let at = r.pick(&[4, 6, 8]);
                let x = r.pick(&[0, 1, 2, 255, 256, 257, 591, 592, 680, 681, 682, 1023, 65535]);
                put16(&mut p, at, x);
            }
            4 => {
                let at = 10 + 2 * r.below(n.min(1000));
                put16(&mut p, at, r.pick(&[0, 1, 255, 256, 257, 32687, 65535]));
            }
            5 => {
                let (i, j) = (10 + 2 * r.below(n.min(1000)), 10 + 2 * r.below(n.min(1000)));
                p.swap(i, j);
                p.swap(i + 1, j + 1);
            }
            6 => {
                let start = (10 + 2 * n).min(4000);
                let at = start + r.below(40);
                p[at] = r.next() as u8;
            }
            7 => {
                // one off in a header number or an offset
                let at = 4 + 2 * r.below(3 + n.min(1000));
                add16(&mut p, at, r.pick(&[1, 0xffff]));
            }
            8 => {
                // one bit more or less at the body's end
                let at = if r.once_in(3) { 8 } else { 8 + 2 * n.min(1000) };
                add16(&mut p, at, r.pick(&[1, 1, 0xffff]));
            }
            _ => {
                if r.once_in(3) {
                    let len = r.pick(&[1, 9, 10, 11, 4092, 4095, 4097, 8192]);
                    p.resize(len, 0);
                }
            }
        }
    }
    p
}

// ---- records

// a key above a and, if there is one, below b
fn between(r: &mut Random, a: Option<&Key>, b: Option<&Key>) -> Option<Key> {
    let k = match (a, b) {
        (Some(a), Some(b)) if r.once_in(3) => naive::separate(a, b).ok()?,
        (Some(a), _) => {
            let mut k = *a;
            let at = (naive::separator_len(a) + r.below(12)).min(255);
            k[at / 8] |= 128 >> (at % 8);
            k
        }
        (None, Some(b)) => {
            let mut k = *b;
            let len = naive::separator_len(b);
            cut(&mut k, len - 1);
            k
        }
        (None, None) => key(r),
    };
    let above = a.map_or(true, |a| *a < k);
    let below = b.map_or(true, |b| k < *b);
    (above && below).then_some(k)
}

/// Edits over a base whose new keys rise.
pub fn edits(r: &mut Random, base: &[Entry]) -> Vec<Edit> {
    let mut out = vec![];
    if base.is_empty() {
        let most = count(r);
        return naive::inserts(&fitting(r, most));
    }
    let (keep, update, drop, insert) = r.pick(&[
        (90, 5, 3, 2),
        (50, 20, 10, 20),
        (0, 0, 100, 100),
        (10, 0, 40, 50),
        (97, 3, 0, 0),
        (0, 100, 0, 0),
        (60, 0, 40, 0),
        (60, 10, 0, 30),
    ]);
    let run = r.pick(&[1, 3, 20, 700]);
    let mut last: Option<Key> = None;
    let mut i = 0;
    while i < base.len() {
        if r.below(100) < insert {
            if let Some(k) = between(r, last.as_ref(), Some(&base[i].key)) {
                out.push(Edit::Insert(k, r.number() as u32));
                last = Some(k);
            }
        }
        let what = r.below(keep + update + drop);
        if what < keep {
            let end = (i + r.from_to(1, run)).min(base.len());
            out.push(Edit::Keep(i, end));
            i = end;
            last = Some(base[i - 1].key);
        } else if what < keep + update {
            let pointer = if r.once_in(5) {
                base[i].pointer
            } else {
                r.number() as u32
            };
            out.push(Edit::Update(i, pointer));
            last = Some(base[i].key);
            i += 1;
        } else {
            // dropped; the same entry inserted again at times
            if r.once_in(6) {
                out.push(Edit::Insert(base[i].key, base[i].pointer));
                last = Some(base[i].key);
            }
            i += 1;
        }
    }
    for _ in 0..r.below(3) {
        if let Some(k) = between(r, last.as_ref(), None) {
            out.push(Edit::Insert(k, r.number() as u32));
            last = Some(k);
        }
    }
    out.truncate(1023);
    if out.is_empty() {
        out.push(Edit::Keep(0, 1));
    }
    out
}

/// Edits that may break 11, 12 or 13.
pub fn wrong_edits(r: &mut Random, n: usize, good: &[Edit]) -> Vec<Edit> {
    let mut es = good.to_vec();
    let at = r.below(es.len().max(1)).min(es.len().saturating_sub(1));
    let place = |r: &mut Random| {
        r.pick(&[0, 1, n.saturating_sub(1), n, n + 1, 1023])
            .min(1023)
    };
    match r.below(8) {
        0 => es.insert(at, Edit::Update(place(r), 5)),
        1 => es.insert(at, Edit::Keep(place(r), place(r))),
        2 => es.swap(at, r.below(good.len())),
        3 => es.insert(at, es[at]),
        4 => es.insert(at, Edit::Insert(key(r), 9)),
        5 => es.clear(),
        6 => es[at] = Edit::Update(place(r), 6),
        _ => es.push(Edit::Insert(key(r), 3)),
    }
    es.truncate(1023);
    es
}

/// A record's bytes, damaged: flipped, cut, with bytes or bits too many.
pub fn damaged_record(r: &mut Random, record: &[u8]) -> Vec<u8> {
    let mut x = record.to_vec();
    match r.below(8) {
        0 => flip(&mut x, r.below(10)),
        1 => flip(&mut x, r.below(8 * record.len())),
        2 => x.truncate(r.below(record.len())),
        3 => {
            x.pop();
        }
        4 => {
            let more = r.from_to(1, 3);
            x.resize(x.len() + more, 0);
        }
        5 => {
            let last = x.len() - 1;
            x[last] ^= r.pick(&[1, 2, 4, 8, 16, 32, 64, 128]);
        }
        6 => {
            let len = r.below(60);
            x = r.bytes(len);
        }
        _ => {
            let at = 10 + r.below((8 * x.len() - 10).min(600));
            x[at / 8] |= 128 >> (at % 8);
        }
    }
    x
}
