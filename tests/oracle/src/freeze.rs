//! The Rust's answers, frozen: cases in the form of tools/sample.py, for the program `replayed`, so that the gate needs
//! no Rust. Every answer is the Rust text's own; what it does not say (the count of a page's bits, its choice of m and
//! q, the undo record of no base) is document 01's.
use crate::compare::pushed;
use crate::generate::{self as gen, Random};
use crate::naive::{self, Entry, Key, PAGE};

const SEED: u64 = 20261115;

const HEAD: &str = "The answers of thrumdev/nomt at e06d75dbb3, its bit_ops.rs and node.rs unchanged, written by \
    `cargo run --release -- freeze FILE` in tests/oracle from a fixed seed: separator length, shared bits, separate of \
    ascending keys, bit copies and key rebuilding in its domain, size formulas in a page's range, pages by `push` read \
    back by its reader, and builds with no base, whose page is its builder's.";

fn field(body: &mut Vec<u8>, bytes: &[u8]) {
    body.extend((bytes.len() as u32).to_le_bytes());
    body.extend(bytes);
}

struct Cases {
    count: u32,
    bytes: Vec<u8>,
}

impl Cases {
    fn add(&mut self, op: u8, fields: &[&[u8]]) {
        let mut body = Vec::new();
        for f in fields {
            field(&mut body, f);
        }
        self.count += 1;
        self.bytes.push(op);
        self.bytes.extend((body.len() as u32).to_le_bytes());
        self.bytes.extend(body);
    }
}

fn le(x: usize) -> [u8; 8] {
    (x as u64).to_le_bytes()
}

fn keys(c: &mut Cases, r: &mut Random) {
    for _ in 0..40 {
        let a = gen::key(r);
        let b = gen::key_near(r, &a);
        c.add(1, &[&a, &le(nomt::separator_len(&a))]);
        c.add(2, &[&a, &b, &le(shared(&a, &b))]);
        if a < b {
            c.add(3, &[&a, &b, &[7; 32], &le(0), &nomt::separate(&a, &b)]);
        }
    }
}

// the Rust's shared bits; it does not end on equal keys
fn shared(a: &Key, b: &Key) -> usize {
    if a == b {
        return 256;
    }
    nomt::prefix_len(a, b)
}

fn copies(c: &mut Cases, r: &mut Random) {
    for _ in 0..60 {
        let (to, from, len) = (r.below(8), r.below(8), 1 + r.below(400));
        let src = r.bytes((from + len + 63) / 64 * 8);
        let more = r.below(3);
        let dst = r.bytes((to + len + 7) / 8 + more);
        let mut left = dst.clone();
        nomt::bitwise_memcpy(&mut left, to, &src, from, len);
        c.add(
            4,
            &[&dst, &le(to), &src, &le(from), &le(len), &le(0), &left],
        );
    }
}

fn rebuilt(c: &mut Cases, r: &mut Random) {
    for _ in 0..40 {
        let p = r.below(200);
        let (start, s) = (r.below(8), 1 + r.below(256 - p));
        let prefix = r.bytes((p + 7) / 8);
        let sep = r.bytes((start + s + 63) / 64 * 8);
        let first = (p != 0).then_some((&prefix[..], p));
        let key = nomt::reconstruct_key(first, (&sep, start, s));
        c.add(
            5,
            &[
                &prefix,
                &le(p),
                &sep,
                &le(start),
                &le(s),
                &[7; 32],
                &le(0),
                &key,
            ],
        );
    }
}

fn sizes(c: &mut Cases, r: &mut Random) {
    for _ in 0..30 {
        let [q, sum, n, first] = [
            r.below(257),
            r.below(30_000),
            1 + r.below(681),
            r.below(257),
        ];
        let body = nomt::body_size(q, sum, n);
        c.add(6, &[&le(q), &le(sum), &le(n), &le(0), &le(body)]);
        let whole = nomt::uncompressed_separator_range_size(q, sum, n, first);
        c.add(
            7,
            &[&le(q), &le(sum), &le(n), &le(first), &le(0), &le(whole)],
        );
        // the other keys are longer than the prefix
        let others = sum + (n - 1) * q;
        let stored = nomt::compressed_separator_range_size(first, n, others, q);
        c.add(
            8,
            &[&le(first), &le(n), &le(others), &le(q), &le(0), &le(stored)],
        );
    }
}

// entries, and the page that the Rust's builder makes of them
fn page(r: &mut Random, most: usize) -> (Vec<Entry>, u32, naive::Choice, Vec<u8>) {
    loop {
        let all = gen::fitting(r, most);
        if all.is_empty() || !naive::fits(&all) {
            continue;
        }
        let number = r.next() as u32;
        let choice = naive::choice(&naive::keys_of(&all));
        if let Some(bytes) = pushed(&all, number, choice.m, choice.q) {
            return (all, number, choice, bytes);
        }
    }
}

fn pages(c: &mut Cases, r: &mut Random) {
    for _ in 0..12 {
        let (all, of, choice, bytes) = page(r, 120);
        let i = r.below(all.len());
        let node = nomt::Node::of(&bytes);
        c.add(
            9,
            &[
                &bytes,
                &le(0),
                &le(of as usize),
                &le(all.len()),
                &le(choice.m),
                &le(choice.q),
                &le(choice.bits),
                &le(i),
                &[7; 32],
                &le(0),
                &le(node.pointer(i) as usize),
                &node.key(i),
            ],
        );
    }
}

fn builds(c: &mut Cases, r: &mut Random) {
    for _ in 0..24 {
        let (all, of, choice, bytes) = page(r, 120);
        let record = naive::write_record(&naive::inserts(&all));
        c.add(
            10,
            &[
                &[],
                &record,
                &le(of as usize),
                &le(PAGE),
                &le(0xA5),
                &[9; 8],
                &le(0),
                &le(all.len()),
                &le(choice.m),
                &le(choice.q),
                &le(choice.bits),
                &le(2),
                &bytes,
                &[0, 0, 9, 9, 9, 9, 9, 9],
            ],
        );
    }
}

/// Writes the cases to a file.
pub fn run(path: &str) -> bool {
    if !nomt::PRESENT {
        println!("oracle: the Rust texts are not at hand, and nothing is frozen");
        return false;
    }
    let mut c = Cases {
        count: 0,
        bytes: Vec::new(),
    };
    let r = &mut Random::new(SEED);
    c.add(11, &[HEAD.as_bytes()]);
    keys(&mut c, r);
    copies(&mut c, r);
    rebuilt(&mut c, r);
    sizes(&mut c, r);
    pages(&mut c, r);
    builds(&mut c, r);
    let mut out = c.count.to_le_bytes().to_vec();
    out.extend(&c.bytes);
    std::fs::write(path, &out).expect("the file can be written");
    println!("oracle: {} cases frozen, {} bytes", c.count - 1, out.len());
    true
}
