//! The comparisons: counted by kind, refusals by number, and of the inputs that differ the
//! smallest.
use crate::generate::{self as gen, Random};
use crate::naive::{self, Entry, Key, PAGE, UNDO};
use crate::vectors::hex;
use crate::{port, told};
use std::collections::BTreeMap;
use std::panic::{catch_unwind, AssertUnwindSafe};

#[derive(Default)]
pub struct Tally {
    counts: BTreeMap<&'static str, u64>,
    refusals: [u64; 20],
    // kind, and the smallest input: its weight and its text
    differ: BTreeMap<&'static str, (usize, u64, String)>,
}

impl Tally {
    pub fn same(
        &mut self,
        kind: &'static str,
        good: bool,
        weight: usize,
        input: impl FnOnce() -> String,
    ) {
        *self.counts.entry(kind).or_default() += 1;
        if good {
            return;
        }
        let d = self
            .differ
            .entry(kind)
            .or_insert((usize::MAX, 0, String::new()));
        d.1 += 1;
        if weight < d.0 {
            d.0 = weight;
            d.2 = input();
        }
    }

    fn refused(&mut self, number: u64) {
        self.refusals[number as usize % 20] += 1;
    }

    /// Prints what was counted; true where nothing differs.
    pub fn print(&self) -> bool {
        for (kind, n) in &self.counts {
            println!("{n:9}  {kind}");
        }
        let all: u64 = self.counts.values().sum();
        println!("{all:9}  comparisons in all");
        let seen: Vec<String> = (1..20)
            .map(|i| format!("{i}: {}", self.refusals[i]))
            .collect();
        println!("refusals seen: {}", seen.join(", "));
        println!("answers with no refusal: {}", self.refusals[0]);
        for (kind, (_, n, input)) in &self.differ {
            println!("DIFFERS {n} times: {kind}\n  smallest input: {input}");
        }
        self.differ.is_empty()
    }
}

// how much an input holds: its bytes that are not zero, and a little for its length
fn weight(parts: &[&[u8]]) -> usize {
    parts
        .iter()
        .map(|p| 64 * p.iter().filter(|b| **b != 0).count() + p.len())
        .sum()
}

/// What it answers; none where it stops the run.
pub fn quiet<T>(f: impl FnOnce() -> T) -> Option<T> {
    catch_unwind(AssertUnwindSafe(f)).ok()
}

fn keys(t: &mut Tally, r: &mut Random, turns: usize) {
    for _ in 0..turns {
        let a = gen::key(r);
        let b = if r.once_in(3) {
            gen::key(r)
        } else {
            gen::key_near(r, &a)
        };
        let w = weight(&[&a, &b]);
        let both = || format!("{} {}", hex(&a), hex(&b));

        let len = port::separator_len(&a);
        let good = len == naive::separator_len(&a) as u64;
        t.same("separator length, naive", good, w, both);
        let shared = port::prefix_len(&a, &b);
        let good = shared == naive::shared(&a, &b) as u64;
        t.same("shared bits, naive", good, w, both);
        let was: Key = [r.next() as u8; 32];
        let mut out = was;
        let no = port::separate(&a, &b, &mut out);
        t.refused(no);
        let good = (no, out) == told::written(naive::separate(&a, &b), &was);
        t.same("separate, naive", good, w, both);
        if nomt::PRESENT {
            let good = len == nomt::separator_len(&a) as u64;
            t.same("separator length, Rust", good, w, both);
            let good = shared == nomt::prefix_len(&a, &b) as u64;
            t.same("shared bits, Rust", good, w, both);
            if a < b {
                let good = (no, out) == (0, nomt::separate(&a, &b));
                t.same("separate with a < b, Rust", good, w, both);
            }
        }
    }
}

// a source of bits as the Rust wants it: from its first bit's byte on, in whole groups of 64 bits
fn grouped(r: &mut Random, src: &[u8], from: usize, len: usize) -> Vec<u8> {
    let fill = r.next() as u8;
    if len == 0 {
        return vec![];
    }
    let mut source = src[from / 8..].to_vec();
    source.resize((from % 8 + len + 63) / 64 * 8, fill);
    source
}

fn copies(t: &mut Tally, r: &mut Random, turns: usize) {
    for turn in 0..turns {
        let big = turn % 50 == 0;
        let most = if big { 1200 } else { 48 };
        let (dl, sl) = (r.below(most), r.below(most));
        let (dst, src) = (r.bytes(dl), r.bytes(sl));
        let bits = |r: &mut Random, l: usize| match r.below(12) {
            0 => 8 * l,
            1 => (8 * l).saturating_sub(1),
            2 => 8 * l + 1,
            3 => r.number() as usize,
            _ => r.below(8 * l + 1),
        };
        let (to, from) = (bits(r, dl), bits(r, sl));
        let least = (8 * dl)
            .saturating_sub(to)
            .min((8 * sl).saturating_sub(from));
        let len = match r.below(12) {
            0 => 0,
            1 => least,
            2 => least + 1,
            3 => r.number() as usize,
            _ => r.below(least + 1),
        };
        let w = weight(&[&dst, &src]);
        let input = || {
            format!(
                "dst {} from bit {to}, src {} from bit {from}, {len} bits",
                hex(&dst),
                hex(&src)
            )
        };

        let mut mine = dst.clone();
        let no = port::bit_copy(&mut mine, to, &src, from, len);
        t.refused(no);
        let mut plain = dst.clone();
        let said = naive::bit_copy(&mut plain, to as u64, &src, from as u64, len as u64)
            .err()
            .unwrap_or(0);
        t.same("bit copy, naive", no == said && mine == plain, w, input);

        // for the Rust: starts cut to 0 to 7, the source as long as it wants it
        if nomt::PRESENT && no == 0 && len != 0 {
            let source = grouped(r, &src, from, len);
            let mut theirs = dst.clone();
            let done = quiet(|| {
                nomt::bitwise_memcpy(&mut theirs[to / 8..], to % 8, &source, from % 8, len)
            });
            let good = done.is_some() && theirs == mine;
            t.same("bit copy in the Rust's domain, Rust", good, w, input);
        }
    }
}

fn rebuilt(t: &mut Tally, r: &mut Random, turns: usize) {
    for _ in 0..turns {
        let (pl, sl) = (r.below(40), r.below(48));
        let (prefix, sep) = (r.bytes(pl), r.bytes(sl));
        let p = match r.below(10) {
            0 => 0,
            1 => 8 * pl,
            2 => 8 * pl + 1,
            3 => r.number() as usize,
            _ => r.below(8 * pl + 1),
        };
        let start = match r.below(10) {
            0 => 8 * sl,
            1 => r.number() as usize,
            _ => r.below(8 * sl + 1),
        };
        let left = (8 * sl).saturating_sub(start);
        let s = match r.below(10) {
            0 => 0,
            1 => left,
            2 => left + 1,
            3 => r.number() as usize,
            4 => 256usize.saturating_sub(p).min(left),
            5 => 257usize.saturating_sub(p).min(left),
            _ => r.below(left + 1),
        };
        let w = weight(&[&prefix, &sep]);
        let input = || {
            format!(
                "prefix {} {p} bits, separator {} from bit {start}, {s} bits",
                hex(&prefix),
                hex(&sep)
            )
        };
        let was: Key = [r.next() as u8; 32];
        let mut out = was;
        let no = port::reconstruct_key(&prefix, p, &sep, start, s, &mut out);
        t.refused(no);
        let said = naive::rebuild(&prefix, p as u64, &sep, start as u64, s as u64);
        let good = (no, out) == told::written(said, &was);
        t.same("key rebuilding, naive", good, w, input);
        if nomt::PRESENT && no == 0 {
            let source = grouped(r, &sep, start, s);
            let first = (p != 0).then(|| (&prefix[..(p + 7) / 8], p));
            let theirs = quiet(|| nomt::reconstruct_key(first, (&source, start % 8, s)));
            let good = theirs == Some(out);
            t.same("key rebuilding up to 256 bits, Rust", good, w, input);
        }
    }
}

fn sizes(t: &mut Tally, r: &mut Random, turns: usize) {
    for turn in 0..turns {
        // a page's numbers, or any
        let small = turn % 2 == 0;
        let x: Vec<u64> = (0..4)
            .map(|_| {
                if small {
                    r.below(700) as u64
                } else {
                    r.number()
                }
            })
            .collect();
        let (a, b, c, d) = (x[0], x[1], x[2], x[3]);
        let w = x.iter().map(|v| 64 - v.leading_zeros() as usize).sum();
        let input = || format!("{a} {b} {c} {d}");
        let body = port::body_size(a, b, c);
        t.refused(body.refusal);
        let good = body == told::size(naive::body_size(a, b, c));
        t.same("body bytes, naive", good, w, input);
        let whole = port::uncompressed_separator_range_size(a, b, c, d);
        t.refused(whole.refusal);
        let good = whole == told::size(naive::whole_from_stored(a, b, c, d));
        t.same("whole lengths, naive", good, w, input);
        // whole lengths of a page's keys are at least the prefix's
        let others = if small {
            c + b.saturating_sub(1) * d
        } else {
            c
        };
        let stored = port::compressed_separator_range_size(a, b, others, d);
        t.refused(stored.refusal);
        let good = stored == told::size(naive::stored_from_whole(a, b, others, d));
        let input_stored = || format!("{a} {b} {others} {d}");
        t.same("stored lengths, naive", good, w, input_stored);
        if nomt::PRESENT && small {
            let [a, b, c, d, others] = [a, b, c, d, others].map(|v| v as usize);
            let good = body.value == nomt::body_size(a, b, c) as u64;
            t.same("body bytes in a page's range, Rust", good, w, input);
            if whole.refusal == 0 {
                let theirs = nomt::uncompressed_separator_range_size(a, b, c, d);
                let good = whole.value == theirs as u64;
                t.same("whole lengths in a page's range, Rust", good, w, input);
            }
            if stored.refusal == 0 {
                let theirs = nomt::compressed_separator_range_size(a, b, others, d);
                let good = stored.value == theirs as u64;
                let kind = "stored lengths in a page's range, Rust";
                t.same(kind, good, w, input_stored);
            }
        }
    }
}

// a page, often damaged: check and entries
fn page(t: &mut Tally, r: &mut Random, page: &[u8]) {
    let w = weight(&[page]);
    let h = port::check(page);
    t.refused(h.refusal);
    let good = h == told::checked(naive::check(page));
    t.same("check, naive", good, w, || hex(page));
    let n = h.n as usize;
    let indexes = [
        0,
        n.saturating_sub(1),
        n,
        r.below(n + 2),
        r.number() as usize,
    ];
    for i in indexes {
        let was: Key = [r.next() as u8; 32];
        let mut key = was;
        let e = port::entry(page, i, &mut key);
        t.refused(e.refusal);
        let said = told::entry(naive::entry(page, i as u64), &was);
        t.same("entry, naive", (e, key) == said, w, || {
            format!("entry {i} of {}", hex(page))
        });
    }
    if h.refusal == 0 {
        let all = naive::entries_of(page);
        let node = nomt::PRESENT.then(|| nomt::Node::of(page));
        let step = if n > 40 { 1 + n / 20 } else { 1 };
        for i in (0..n).step_by(step) {
            let mut key = [0; 32];
            let e = port::entry(page, i, &mut key);
            let mine = Entry {
                key,
                pointer: e.pointer as u32,
            };
            let at = || format!("entry {i} of {}", hex(page));
            let good = e.refusal == 0 && mine == all[i];
            t.same("entry of an accepted page, naive", good, w, at);
            if let Some(node) = &node {
                let theirs = quiet(|| Entry {
                    key: node.key(i),
                    pointer: node.pointer(i),
                });
                let good = theirs == Some(mine);
                t.same("entry of an accepted page, Rust", good, w, at);
            }
        }
    }
}

fn pages(t: &mut Tally, r: &mut Random, turns: usize) {
    for _ in 0..turns {
        let good = gen::page(r);
        page(t, r, &good);
        for _ in 0..4 {
            let bad = gen::damaged(r, &good);
            page(t, r, &bad);
        }
    }
}

// a build against the naive one, all lent memory too; the port's answer, page and undo
fn built(
    t: &mut Tally,
    base: &[u8],
    record: &[u8],
    number: u32,
    page: &[u8],
    undo: &[u8],
) -> (port::Built, Vec<u8>, Vec<u8>) {
    let (mut p, mut u) = (page.to_vec(), undo.to_vec());
    let mine = port::build(base, record, number, &mut p, &mut u);
    t.refused(mine.refusal);
    let (mut p2, mut u2) = (page.to_vec(), undo.to_vec());
    let said = told::built(naive::build(base, record, number, &mut p2, &mut u2));
    let kind = if said.refusal == 0 {
        "build, naive"
    } else {
        "build refused and memory untouched, naive"
    };
    let good = mine == said && p == p2 && u == u2;
    t.same(kind, good, weight(&[base, record]), || {
        format!(
            "base {} record {} number {number} page of {} bytes, undo of {}: port {mine:?}, \
             naive {said:?}",
            hex(base),
            hex(record),
            page.len(),
            undo.len()
        )
    });
    (mine, p, u)
}

/// Entries pushed in the Rust.
pub fn push(b: &mut nomt::Builder, all: &[Entry]) {
    for e in all {
        b.push(e.key, nomt::separator_len(&e.key), e.pointer);
    }
}

/// The page that the Rust makes by pushes.
pub fn pushed(all: &[Entry], number: u32, m: usize, q: usize) -> Option<Vec<u8>> {
    quiet(|| {
        let mut b = nomt::Builder::new(nomt::Node::of(&[0; PAGE]), number, all.len(), m, q);
        push(&mut b, all);
        b.finish().bytes().to_vec()
    })
}

// the same, the kept runs of a base with an equal prefix length by push_chunk
fn chunked(
    base: &[u8],
    old: &[Entry],
    all: &[Entry],
    number: u32,
    m: usize,
    q: usize,
) -> Option<Vec<u8>> {
    let base_m = naive::le(&base[6..8]);
    quiet(|| {
        let node = nomt::Node::of(base);
        let mut b = nomt::Builder::new(nomt::Node::of(&[0; PAGE]), number, all.len(), m, q);
        let mut i = 0;
        while i < all.len() {
            let from = old.iter().position(|o| o.key == all[i].key);
            let mut k = 0;
            if let Some(from) = from {
                while i + k < m.min(all.len())
                    && from + k < base_m
                    && old[from + k].key == all[i + k].key
                {
                    k += 1;
                }
                if k > 0 {
                    let updated: Vec<(usize, u32)> = (0..k)
                        .filter(|j| old[from + j].pointer != all[i + j].pointer)
                        .map(|j| (j, all[i + j].pointer))
                        .collect();
                    b.push_chunk(&node, from, from + k, &updated);
                }
            }
            if k == 0 {
                push(&mut b, &all[i..=i]);
                k = 1;
            }
            i += k;
        }
        b.finish().bytes().to_vec()
    })
}

fn builds(t: &mut Tally, r: &mut Random, turns: usize) {
    for _ in 0..turns {
        let none = r.once_in(8);
        let most = gen::count(r);
        let old = if none { vec![] } else { gen::fitting(r, most) };
        let base = if none { vec![] } else { gen::page_of(r, &old) };
        let edits = gen::edits(r, &old);
        let record = naive::write_record(&edits);
        let number = r.number() as u32;
        let page = r.bytes(PAGE);
        let new = naive::apply(&old, &edits);
        let needed = naive::write_record(&naive::undo(&old, &new)).len();
        let room = needed + r.pick(&[0, 0, 1, 40]);
        let undo = r.bytes(room);

        let (answer, made, left) = built(t, &base, &record, number, &page, &undo);
        if answer.refusal == 0 {
            accepted(
                t, r, &base, &old, &new, &record, number, answer, &made, &left,
            );
        }

        // refused ones
        let wrong = naive::write_record(&gen::wrong_edits(r, old.len(), &edits));
        let full = r.bytes(UNDO);
        built(t, &base, &wrong, number, &page, &full);
        let broken = gen::damaged_record(r, &record);
        built(t, &base, &broken, number, &page, &full);
        if needed > 0 {
            built(t, &base, &record, number, &page, &undo[..needed - 1]);
        }
        if r.once_in(4) {
            let len = r.pick(&[0, 4095, 4097]);
            let other = r.bytes(len);
            built(t, &base, &record, number, &other, &undo);
        }
        if !none {
            let bad = gen::damaged(r, &base);
            built(t, &bad, &record, number, &page, &full);
        }
        // as many as a page holds, and one more
        if r.once_in(6) {
            let k = gen::keys(r, 900);
            let all = gen::entries(r, &k);
            let good = gen::room_for(&all);
            for count in [good, good + 1, all.len()] {
                let es = naive::inserts(&all[..count.min(all.len())]);
                let many = naive::write_record(&es);
                built(t, &base, &many, number, &page, &full);
            }
        }
    }
}

// an accepted build: the Rust's page, and demand 3
fn accepted(
    t: &mut Tally,
    r: &mut Random,
    base: &[u8],
    old: &[Entry],
    new: &[Entry],
    record: &[u8],
    number: u32,
    answer: port::Built,
    made: &[u8],
    left: &[u8],
) {
    let w = weight(&[base, record]);
    let input = || format!("base {} record {} number {number}", hex(base), hex(record));
    let (m, q) = (answer.m as usize, answer.q as usize);
    if nomt::PRESENT {
        let good = pushed(new, number, m, q).as_deref() == Some(made);
        t.same("page by pushes, every bit, Rust", good, w, input);
        let normal = !base.is_empty() && naive::normal_page(le32(base), old) == base;
        if normal && base[8..10] == made[8..10] {
            let good = chunked(base, old, new, number, m, q).as_deref() == Some(made);
            let kind = "page by pushes and chunks of equal prefix, Rust";
            t.same(kind, good, w, input);
        }
    }
    if new.len() <= 6 {
        // no permitted choice has fewer bits
        let keys = naive::keys_of(new);
        let lens = naive::lens_of(&keys);
        let shares = naive::shared_of_first(&keys);
        let least = (1..=new.len())
            .flat_map(|m| (0..=shares[m - 1]).map(move |q| (m, q)))
            .map(|(m, q)| naive::choice_bits(&lens, m, q))
            .min();
        let good = least == Some(answer.bits as usize);
        t.same("fewest bits of all permitted choices", good, w, input);
    }
    let undo = &left[..answer.undo as usize];
    if base.is_empty() {
        t.same("undo with no base", undo == [0, 0], w, input);
        return;
    }
    // back with the undo record under the base's number, and forth again
    let was = le32(base);
    let (page, room) = (r.bytes(PAGE), r.bytes(UNDO));
    let (back, page2, left2) = built(t, made, undo, was, &page, &room);
    let good = back.refusal == 0 && page2 == naive::normal_page(was, old);
    let kind = "demand 3: back is the normal page of the base's entries";
    t.same(kind, good, w, input);
    if back.refusal != 0 {
        return;
    }
    let redo = &left2[..back.undo as usize];
    let (forth, page3, left3) = built(t, &page2, redo, number, &page, &room);
    let good = forth.refusal == 0 && page3 == made && left3[..forth.undo as usize] == *undo;
    t.same("demand 3: forth again is the new page", good, w, input);
}

fn le32(page: &[u8]) -> u32 {
    naive::le(&page[..4]) as u32
}

/// All comparisons from a seed, `factor` times the usual number; true where nothing differs.
pub fn run(seed: u64, factor: usize) -> bool {
    if !nomt::PRESENT {
        println!("the Rust's texts are not there: what is compared with the Rust is skipped");
    }
    println!("seed {seed}, factor {factor}");
    let mut t = Tally::default();
    let mut r = Random::new(seed);
    keys(&mut t, &mut r, 10_000 * factor);
    copies(&mut t, &mut r, 20_000 * factor);
    rebuilt(&mut t, &mut r, 20_000 * factor);
    sizes(&mut t, &mut r, 20_000 * factor);
    pages(&mut t, &mut r, 2_000 * factor);
    builds(&mut t, &mut r, 3_000 * factor);
    t.print()
}
