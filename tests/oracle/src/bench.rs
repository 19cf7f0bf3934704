//! Times of the port beside the Rust's, in one run.
use crate::compare::push;
use crate::generate::{self as gen, Random};
use crate::naive::{self, Edit, Entry, Key, PAGE, UNDO};
use crate::port;
use std::hint::black_box;
use std::time::Instant;

const BATCHES: usize = 2000;

// nanoseconds a call: the least of many batches, of about 100 us each
fn least<T>(mut f: impl FnMut() -> T) -> f64 {
    let start = Instant::now();
    let mut calls = 0;
    while start.elapsed().as_micros() < 300 {
        black_box(f());
        calls += 1;
    }
    let calls = (calls / 3).max(1);
    let mut best = f64::MAX;
    for _ in 0..BATCHES {
        let start = Instant::now();
        for _ in 0..calls {
            black_box(f());
        }
        best = best.min(start.elapsed().as_nanos() as f64 / calls as f64);
    }
    best
}

fn row(name: &str, mine: f64, theirs: Option<f64>) {
    let none = || "-".to_string();
    let rust = theirs.map_or_else(none, |x| format!("{x:.0}"));
    let ratio = theirs.map_or_else(none, |x| format!("{:.2}", mine / x));
    println!("{name:68} {mine:>9.0} {rust:>9} {ratio:>7}");
}

// the row of one call of the port and one of the Rust
fn both<T, U>(name: &str, mine: impl FnMut() -> T, theirs: impl FnMut() -> U) {
    let mine = least(mine);
    row(name, mine, nomt::PRESENT.then(|| least(theirs)));
}

// n ascending keys: of up to 200, 56 or 18 bits for 100, 300 and 500 of them, behind `under` bits
// that all of them share
fn keys(r: &mut Random, n: usize, under: usize) -> Vec<Key> {
    let most = match n {
        0..=100 => 200,
        101..=300 => 56,
        _ => 18,
    };
    let mut all: Vec<Key> = vec![];
    while all.len() < n {
        let mut k: Key = r.bytes(32).try_into().unwrap();
        k[..under / 8].fill(0xa5);
        let len = under + r.from_to(most - most / 4, most);
        gen::cut(&mut k, len);
        all.push(k);
        all.sort();
        all.dedup();
    }
    all
}

// a build: the port's whole one, the Rust's pushes, and where the prefix is kept its chunks
fn build(name: &str, old: &[Entry], edits: &[Edit]) -> f64 {
    let base = naive::normal_page(7, old);
    let record = naive::write_record(edits);
    let new = naive::apply(old, edits);
    let c = naive::choice(&naive::keys_of(&new));
    let wanted = naive::normal_page(7, &new);
    let (mut page, mut undo) = (vec![0; PAGE], vec![0; UNDO]);
    let mine = least(|| {
        let (base, record) = (black_box(&base), black_box(&record));
        port::build(base, record, 7, &mut page, &mut undo)
    });
    assert!(page == wanted, "the port's page");
    // the Rust's builder, filled in one way, over a page that it is handed again and again
    let rust = |fill: &dyn Fn(&mut nomt::Builder)| {
        let mut node = Some(nomt::Node::of(&[0; PAGE]));
        let t = least(|| {
            let mut b = nomt::Builder::new(node.take().unwrap(), 7, new.len(), c.m, c.q);
            fill(&mut b);
            node = Some(b.finish());
        });
        assert!(node.unwrap().bytes() == wanted, "the Rust's page");
        t
    };
    let name = format!("{name}, {} entries", new.len());
    let theirs = nomt::PRESENT.then(|| rust(&|b| push(b, black_box(&new))));
    row(&format!("{name}: build / pushes"), mine, theirs);

    let (old_m, old_q) = (naive::le(&base[6..8]), naive::le(&base[8..10]));
    let same = naive::keys_of(old) == naive::keys_of(&new);
    if nomt::PRESENT && same && old_q == c.q && old_m == c.m {
        // all that is compressed in one chunk, the pointers that differ updated, the rest pushed
        let updated: Vec<(usize, u32)> = (0..c.m)
            .filter(|i| old[*i].pointer != new[*i].pointer)
            .map(|i| (i, new[i].pointer))
            .collect();
        let from = nomt::Node::of(&base);
        let theirs = rust(&|b| {
            b.push_chunk(black_box(&from), 0, c.m, &updated);
            push(b, &new[c.m..]);
        });
        row(
            &format!("{name}: build / one push_chunk"),
            mine,
            Some(theirs),
        );
    }
    mine
}

pub fn run() -> bool {
    println!(
        "Port beside Rust, nanoseconds a call, one core, one run: each figure is the least \
         of {BATCHES} batches of"
    );
    println!(
        "about 100 us. Everything is in cache; buffers are made before and not cleared \
         between calls. Both are called"
    );
    println!(
        "through functions that are not inlined, the port over C linkage. Keys and bits come \
         from a fixed seed. bitvec,"
    );
    println!(
        "inside the Rust's pushes, is a stand-in that copies by 64-bit groups. '-': there is none."
    );
    if !nomt::PRESENT {
        println!("The Rust's texts are not there: its column stays empty.");
    }
    println!();
    println!("{:68} {:>9} {:>9} {:>7}", "", "port", "Rust", "ratio");
    let r = &mut Random::new(3);

    // bit copy
    let (mut d, mut e, s) = ([0; 2048], [0; 2048], r.bytes(2048));
    for bits in [64, 256, 1024, 8192] {
        for (name, to, from) in [("aligned", 0, 0), ("from bit 6 to bit 3", 3, 6)] {
            let source = &s[..(from + bits + 63) / 64 * 8];
            both(
                &format!("bit copy, {bits} bits, {name}"),
                || port::bit_copy(black_box(&mut d), to, black_box(&s), from, bits),
                || nomt::bitwise_memcpy(black_box(&mut e), to, black_box(source), from, bits),
            );
        }
    }

    // keys
    let a: Key = r.bytes(32).try_into().unwrap();
    let mut b = a;
    b[12] ^= 8;
    let (low, high) = if a < b { (a, b) } else { (b, a) };
    let mut short = a;
    short[9..].fill(0);
    let mut out = [0; 32];
    both(
        "separator length of a key of 72 bits",
        || port::separator_len(black_box(&short)),
        || nomt::separator_len(black_box(&short)),
    );
    both(
        "shared bits, 100 of them",
        || port::prefix_len(black_box(&low), black_box(&high)),
        || nomt::prefix_len(black_box(&low), black_box(&high)),
    );
    both(
        "separate, 100 shared bits",
        || port::separate(black_box(&low), black_box(&high), &mut out),
        || nomt::separate(black_box(&low), black_box(&high)),
    );
    let (prefix, separator) = (&s[..9], &s[100..116]);
    both(
        "key rebuilding, 68 bits of prefix and 90 of separator",
        || port::reconstruct_key(black_box(prefix), 68, black_box(separator), 3, 90, &mut out),
        || nomt::reconstruct_key(Some((black_box(prefix), 68)), (black_box(separator), 3, 90)),
    );

    // pages
    println!();
    println!(
        "The port checks a whole page (1 to 8) before it reads a key; get_key checks \
         nothing. The Rust has no check."
    );
    let mut sets = vec![];
    for n in [100, 300, 500] {
        let (k, other) = (keys(r, n, 0), keys(r, n, 0));
        let other: Vec<Key> = other.into_iter().filter(|x| !k.contains(x)).collect();
        let prefixed = keys(r, n, 16);
        sets.push((
            n,
            gen::entries(r, &k),
            gen::entries(r, &other),
            gen::entries(r, &prefixed),
        ));
    }
    for (n, all, ..) in &sets {
        let page = naive::normal_page(7, all);
        let mine = least(|| port::entry(black_box(&page), n / 2, &mut out));
        let theirs = nomt::PRESENT.then(|| {
            let node = nomt::Node::of(&page);
            least(|| black_box(&node).key(n / 2))
        });
        let name = format!("one key read, page of {n} entries: entry / get_key");
        row(&name, mine, theirs);
    }
    for (n, all, ..) in &sets {
        let page = naive::normal_page(7, all);
        let mine = least(|| port::check(black_box(&page)));
        row(&format!("check of a page of {n} entries"), mine, None);
    }

    // builds
    println!();
    println!(
        "A whole build of the port: base checked, record read, prefix chosen, page and undo \
         record written. The Rust is"
    );
    println!(
        "handed the entries, m and q: pushes with separator_len, or the kept run by \
         push_chunk, and nothing else. Keys are"
    );
    println!(
        "random, of up to 200, 56 and 18 bits for 100, 300 and 500 entries; under one \
         prefix: behind 16 shared bits, so"
    );
    println!(
        "that all are compressed and one chunk holds them; else the chunk holds those below \
         m, and the others are pushed."
    );
    let mut times: Vec<(&str, usize, f64)> = vec![];
    for (n, all, other, prefixed) in &sets {
        let n = *n;
        let few: Vec<Edit> = {
            let mut es = vec![];
            let mut from = 0;
            for i in (n / 10..n).step_by(n / 5) {
                es.push(Edit::Keep(from, i));
                es.push(Edit::Update(i, 99));
                from = i + 1;
            }
            es.push(Edit::Keep(from, n));
            es
        };
        // every step-th entry is not in the base
        let spread = |step: usize| {
            let (mut old, mut es) = (vec![], vec![]);
            for (i, e) in all.iter().enumerate() {
                if i % step == step - 1 {
                    es.push(Edit::Insert(e.key, e.pointer));
                    continue;
                }
                match es.last_mut() {
                    Some(Edit::Keep(_, end)) => *end += 1,
                    _ => es.push(Edit::Keep(old.len(), old.len() + 1)),
                }
                old.push(*e);
            }
            (old, es)
        };
        let inserts = naive::inserts(all);
        let (tenth, half) = (spread(10), spread(2));
        for (name, old, es) in [
            ("five updates", all, &few),
            ("five updates under one prefix", prefixed, &few),
            ("one in ten inserted", &tenth.0, &tenth.1),
            ("half inserted", &half.0, &half.1),
            ("all inserted over a base", other, &inserts),
        ] {
            times.push((name, n, build(name, old, es)));
        }
    }
    println!();
    println!("Pages a second on one core, whole builds; the aim is 30000.");
    println!("{:36} {:>9} {:>9} {:>9}", "entries", 100, 300, 500);
    for (name, ..) in times.iter().filter(|x| x.1 == 100) {
        let at = |n| {
            times
                .iter()
                .find(|x| x.0 == *name && x.1 == n)
                .map_or(0.0, |x| 1e9 / x.2)
        };
        println!(
            "{name:36} {:>9.0} {:>9.0} {:>9.0}",
            at(100),
            at(300),
            at(500)
        );
    }
    let reached = times.iter().filter(|x| x.2 <= 1e9 / 30_000.0).count();
    println!("{reached} of {} reach it", times.len());
    true
}
