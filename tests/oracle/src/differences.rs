//! The differences of docs/DIFFERENCES.md, each from its smallest input: what the Rust's text does,
//! and what the port does beside it.
use crate::compare::quiet;
use crate::naive::{self, Edit, Entry, Key, PAGE, UNDO};
use crate::port;
use crate::vectors::hex;

// a key from its first bytes
fn key(first: &[u8]) -> Key {
    let mut k = [0; 32];
    k[..first.len()].copy_from_slice(first);
    k
}

// a key of so many one bits
fn ones(len: usize) -> Key {
    let mut k = [0; 32];
    for i in 0..len {
        k[i / 8] |= 128 >> (i % 8);
    }
    k
}

fn entry(key: Key, pointer: u32) -> Entry {
    Entry { key, pointer }
}

fn inserts(keys: &[Key], pointer: u32) -> Vec<Edit> {
    keys.iter().map(|k| Edit::Insert(*k, pointer)).collect()
}

fn panics<T>(f: impl FnOnce() -> T) -> bool {
    quiet(f).is_none()
}

struct List {
    good: bool,
}

impl List {
    fn say(&mut self, name: &str, text: &str, good: bool) {
        self.good &= good;
        println!(
            "{name:5} {} {text}",
            if good { "as said:" } else { "NOT AS SAID:" }
        );
    }
}

// the port's build, and its page, which was of such bytes before
fn build_on(was: u8, base: &[u8], edits: &[Edit]) -> (port::Built, Vec<u8>) {
    let record = naive::write_record(edits);
    let mut page = vec![was; PAGE];
    let a = port::build(base, &record, 0, &mut page, &mut [0; UNDO]);
    (a, page)
}

fn build(base: &[u8], edits: &[Edit]) -> (port::Built, Vec<u8>) {
    build_on(0, base, edits)
}

// the Rust's builder on a zeroed page
fn builder(n: usize, m: usize, q: usize) -> nomt::Builder {
    nomt::Builder::new(nomt::Node::of(&[0; PAGE]), 0, n, m, q)
}

// a page that the Rust makes by pushes
macro_rules! pushed {
    ($rust:ident, $all:expr, $m:expr, $q:expr) => {{
        let all: &[Entry] = $all;
        let mut b = $rust::Builder::new($rust::Node::of(&[0; PAGE]), 0, all.len(), $m, $q);
        for e in all {
            b.push(e.key, $rust::separator_len(&e.key), e.pointer);
        }
        b.finish()
    }};
}

// the entry that a chunk of one brings to a page with prefix length q, behind an entry of ones that
// stores `before` bits, or alone
macro_rules! carried {
    ($rust:ident, $base:expr, $from:expr, $q:expr, $before:expr) => {{
        let n = 1 + ($before > 0) as usize;
        let mut b = $rust::Builder::new($rust::Node::of(&[0; PAGE]), 0, n, n, $q);
        if $before > 0 {
            b.push(ones($q + $before), $q + $before, 0);
        }
        b.push_chunk(&$base, $from, $from + 1, &[]);
        b.finish().key(n - 1)
    }};
}

fn ends(page: &[u8]) -> Vec<usize> {
    let n = naive::le(&page[4..6]);
    page[10..10 + 2 * n].chunks(2).map(naive::le).collect()
}

fn d1(l: &mut List) {
    let masks = ["fn first_chunk_mask(", "fn last_chunk_mask("]
        .iter()
        .all(|f| nomt::BIT_OPS.contains(f));
    let number = ["BRANCH_NODE_SIZE: usize = 4", "BRANCH_NODE_SIZE: usize ="]
        .iter()
        .any(|s| nomt::NODE.contains(s));
    l.say(
        "D1",
        "both chunk masks stand in bit_ops.rs; BRANCH_NODE_SIZE is nowhere given",
        masks && !number,
    );
}

fn d2(l: &mut List) {
    let mut b = nomt::Builder::new(nomt::Node::of(&[0xff; PAGE]), 0, 1, 1, 1);
    b.push(key(&[0x80]), 1, 0);
    let theirs = b.finish().bytes()[12..21].to_vec();
    let (a, page) = build_on(0xff, &[], &[Edit::Insert(key(&[0x80]), 7)]);
    let cleared = page[12] == 0x80 && page[13..PAGE - 4].iter().all(|b| *b == 0);
    let text = format!(
        "on a page of ff, key 80, m 1, q 1: the Rust's bytes 12 to 20 are {}; the \
         port's are 0 up to the pointers",
        hex(&theirs)
    );
    l.say(
        "D2",
        &text,
        theirs == [0x80, 0, 0, 0, 0, 0, 0, 0, 0xff] && a.refusal == 0 && cleared,
    );
}

fn d3(l: &mut List) {
    let old = [entry(key(&[0x80]), 1), entry(key(&[0x84]), 2)];
    let base = pushed!(nomt, &old, 2, 5);
    let new = [old[0], old[1], entry(key(&[0xa0]), 3)];
    let mut b = builder(3, 3, 2);
    b.push_chunk(&base, 0, 2, &[]);
    b.push(new[2].key, 3, 3);
    let theirs = b.finish();
    let alike = (0..3).all(|i| theirs.key(i) == new[i].key);
    let edits = [Edit::Keep(0, 2), Edit::Insert(new[2].key, 3)];
    let (a, page) = build(base.bytes(), &edits);
    let (t, p) = (ends(theirs.bytes()), ends(&page));
    let good = t == [3, 7, 8] && p == [0, 4, 5] && alike && (a.m, a.q) == (3, 2);
    l.say(
        "D3",
        &format!(
            "base 80, 84, Keep 0..2, Insert a0: push_chunk ends at {t:?}, the port \
         at {p:?} (m 3, q 2); read back alike"
        ),
        good,
    );

    // a page that is full by the formula
    let mut last = key(&[0x80]);
    last[31] = 1;
    let old = [entry(key(&[0x80]), 1), entry(last, 2)];
    let base = pushed!(nomt, &old, 2, 255);
    let mut below: Vec<Key> = (0..106u8)
        .map(|i| {
            let mut k = key(&[i + 1]);
            k[31] = 1;
            k
        })
        .collect();
    let mut short = key(&[0x7f]);
    short[7] = 2;
    below.push(short);
    let lens: Vec<usize> = below.iter().map(nomt::separator_len).collect();
    let body = nomt::body_size(0, lens.iter().sum::<usize>() + 257, 109);
    let mut b = builder(109, 109, 0);
    for (k, len) in below.iter().zip(&lens) {
        b.push(*k, *len, 0xffff_ffff);
    }
    b.push_chunk(&base, 0, 2, &[]);
    let theirs = b.finish();
    let lost: Vec<usize> = (0..107)
        .filter(|i| theirs.pointer(*i) != 0xffff_ffff)
        .collect();
    let mut edits = inserts(&below, 0xffff_ffff);
    edits.push(Edit::Keep(0, 2));
    let (a, page) = build(base.bytes(), &edits);
    let all = naive::entries_of(&page);
    let kept =
        a.refusal == 0 && all[..107].iter().all(|e| e.pointer == 0xffff_ffff) && all[107..] == old;
    let good = body == 4086 && lost == [0, 1, 2, 3, 4, 5, 6, 7] && kept;
    l.say(
        "D3",
        &format!(
            "107 keys and a chunk from q 255 to 0, body {body}: the Rust overwrites \
         the pointers {lost:?}, the port none"
        ),
        good,
    );
}

fn d4(l: &mut List) {
    let k = key(&[0, 0, 0, 0, 0, 0, 0, 0, 0xc0]);
    let base = pushed!(nomt, &[entry(k, 1)], 1, 65);
    let theirs = carried!(nomt, base, 0, 1, 0);
    let wrong = key(&[0, 0, 0, 0, 0, 0, 0, 0, 0x40]);
    l.say(
        "D4",
        &format!(
            "q 65 to 1: key 0000000000000000c0 reads back as {}",
            hex(&theirs[..9])
        ),
        theirs == wrong,
    );

    // where it is short: a key of ones, every q to every shorter one, behind up to seven bits
    let all = ones(256);
    let (mut bad, mut stops, mut as_said) = (0, 0, true);
    for old in 1..=248 {
        let base = pushed!(nomt, &[entry(all, 1)], 1, old);
        let checked = pushed!(nomt_checked, &[entry(all, 1)], 1, old);
        for (new, before) in (0..old).flat_map(|new| (0..8).map(move |before| (new, before))) {
            let d = old - new;
            let short = new % 8 + d > 64 * ((d + 63) / 64);
            let panic = panics(|| carried!(nomt_checked, checked, 0, new, before));
            let wrong = panics(|| assert_eq!(carried!(nomt, base, 0, new, before), all));
            as_said &= wrong == short && (short || !panic);
            bad += wrong as usize;
            stops += panic as usize;
        }
    }
    l.say(
        "D4",
        &format!(
            "a key of ones, every q to every shorter one: {bad} are short, exactly \
         where (new q mod 8) + d > 64 ceil(d / 64); {stops} of them panic with overflow checks"
        ),
        as_said && bad > 0 && stops > 0,
    );

    // the port carries the right bits
    let mut good = true;
    for q in [65, 68, 72, 130, 200] {
        let old = [entry(ones(255), 1), entry(all, 2)];
        let base = naive::page_with(0, &old, 2, q, &[255 - q, 256 - q]);
        let edits = [Edit::Insert(ones(4), 3), Edit::Keep(0, 2)];
        let (a, page) = build(&base, &edits);
        good &= a.refusal == 0 && a.q == 4 && naive::entries_of(&page)[1..] == old;
    }
    l.say(
        "D4",
        "the port carries every bit from q 65, 68, 72, 130 and 200 to q 4",
        good,
    );
}

fn d5(l: &mut List) {
    let (a, b) = (key(&[0x80]), key(&[0]));
    let theirs = nomt::separate(&a, &b);
    let stops = panics(|| nomt::separate(&a, &a));
    let mut out = [7; 32];
    let (x, y) = (
        port::separate(&a, &b, &mut out),
        port::separate(&a, &a, &mut out),
    );
    let good = theirs == b && stops && (x, y) == (17, 17) && out == [7; 32];
    l.say(
        "D5",
        &format!(
            "separate(80, 00): the Rust answers {}, equal keys panic; the port says {x} and {y}",
            hex(&theirs[..1])
        ),
        good,
    );
}

fn d6(l: &mut List) {
    let old = [
        entry(key(&[0x10]), 1),
        entry(key(&[0x20]), 2),
        entry(key(&[0x40]), 3),
    ];
    let base = naive::page_with(0, &old, 1, 0, &[4, 3, 2]);
    let stops = panics(|| nomt_checked::tracked(&base, 2, 3));
    let (keys, chunks) = nomt::tracked(&base, 2, 3);
    let named: Vec<String> = keys.iter().map(|k| hex(&k[..1])).collect();
    let (a, page) = build(&base, &[Edit::Keep(2, 3)]);
    let good = stops
        && keys == [old[1].key, old[2].key]
        && chunks == [(2, 1)]
        && a.refusal == 0
        && naive::entries_of(&page) == old[2..];
    l.say(
        "D6",
        &format!(
            "base 10, 20, 40 with m 1, Keep 2..3: the tracker panics with overflow \
         checks, without them it inserts {named:?} beside the chunk {chunks:?}; the port keeps 40 \
         alone"
        ),
        good,
    );
}

fn d7(l: &mut List) {
    let a = key(&[0xff, 0xff, 0xff, 0xff, 0xff, 0xff, 0xff, 0xff, 0x7e]);
    let mut b = [0; 32];
    b[..15].fill(0xff);
    b[15] = 0xc0;
    let old = [entry(a, 1), entry(b, 2)];
    let base = pushed!(nomt, &old, 2, 0);
    let theirs = carried!(nomt, base, 1, 64, 0);
    let mut wrong = b;
    wrong[15] = 0x80;
    let (x, page) = build(base.bytes(), &[Edit::Keep(0, 2)]);
    let good = theirs == wrong && x.refusal == 0 && x.q == 64 && naive::entries_of(&page) == old;
    l.say(
        "D7",
        &format!(
            "fifteen ff and c0 from q 0 to 64 reads back with {}; the port, to q {}, with c0",
            hex(&theirs[15..16]),
            x.q
        ),
        good,
    );
}

fn d8(l: &mut List) {
    // 136 keys of 64 shared bits pushed, and one of 65 bits by a chunk from q 0: the body is 4,086
    let under = |i: u8, last: usize| {
        let mut k = [0xff; 32];
        k[8..].fill(0);
        k[8] = i / 2;
        k[9] = i % 2 * 128;
        k[last] = k[last].max(1);
        k
    };
    let mut keys: Vec<Key> = (0..134).map(|i| under(i, 31)).collect();
    keys.push(under(134, 27));
    keys.push(under(135, 26));
    let last = key(&[0xff, 0xff, 0xff, 0xff, 0xff, 0xff, 0xff, 0xff, 0x80]);
    let base = pushed!(nomt, &[entry(last, 5)], 1, 0);
    let mut b = builder(137, 137, 64);
    let mut sum = 1;
    for k in &keys {
        let len = nomt::separator_len(k);
        sum += len - 64;
        b.push(*k, len, 0xffff_ffff);
    }
    b.push_chunk(&base, 0, 1, &[]);
    let body = nomt::body_size(64, sum, 137);
    let theirs = b.finish();
    let at = PAGE - 4 * 137;
    let zeros = theirs.bytes()[at..].iter().take_while(|b| **b == 0).count();
    let mut edits = inserts(&keys, 0xffff_ffff);
    edits.push(Edit::Keep(0, 1));
    let (a, page) = build(base.bytes(), &edits);
    let kept = a.refusal == 0 && page[at..PAGE - 4].iter().all(|b| *b == 0xff);
    l.say(
        "D8",
        &format!(
            "a chunk from q 0 to 64 at the end of a page with body {body}: {zeros} \
         pointer bytes become zero; the port's none"
        ),
        body == 4086 && zeros == 7 && kept,
    );
}

fn d9(l: &mut List) {
    // n = 681 with no bits is 7, n = 682 is 5
    let mut page = [0; PAGE];
    let mut said = vec![];
    for n in [681u16, 682] {
        page[4..6].copy_from_slice(&n.to_le_bytes());
        page[6..8].copy_from_slice(&1u16.to_le_bytes());
        said.push(port::check(&page).refusal);
    }
    l.say(
        "D9",
        &format!("pages of 681 and 682 entries with no bits: {said:?}"),
        said == [7, 5],
    );

    // the densest keys: 0 to 255 behind nine zero bits, and all of up to eight or nine bits
    let mut cheap: Vec<Key> = (0..256u32).map(|i| key(&(i << 15).to_be_bytes())).collect();
    let mut plain: Vec<Key> = (1..512u32).map(|i| key(&(i << 23).to_be_bytes())).collect();
    plain.sort_by_key(|k| naive::separator_len(k));
    cheap.extend(plain);
    let mut answers = vec![];
    let mut base = vec![];
    for n in [591, 592] {
        let mut keys = cheap[..n].to_vec();
        keys.sort();
        let (a, page) = build(&[], &inserts(&keys, 1));
        answers.push(a.refusal);
        if n == 591 {
            base = page;
        }
    }
    let (a, _) = build(&base, &[Edit::Insert([0xff; 32], 1)]);
    let good = answers == [0, 14] && a.undo == 21_425;
    l.say(
        "D9",
        &format!(
            "591 of the densest keys fit, 592 do not ({answers:?}); the undo record \
         of all 591 has {} bytes",
            a.undo
        ),
        good,
    );
}

fn d10(l: &mut List) {
    let max = u64::MAX;
    let theirs = nomt::body_size(0, max as usize, 0);
    let stops = panics(|| nomt_checked::body_size(0, max as usize, 0));
    let mine = port::body_size(0, max, 0);
    let good = theirs == 0 && stops && (mine.refusal, mine.value) == (0, 1 << 61);
    l.say(
        "D10",
        &format!(
            "body_size(0, 2^64 - 1, 0): the Rust {theirs}, with overflow checks a \
         panic; the port {}",
            mine.value
        ),
        good,
    );
    let theirs = nomt::compressed_separator_range_size(5, 0, 7, 2);
    let stops = panics(|| nomt_checked::compressed_separator_range_size(5, 0, 7, 2));
    let mine = port::compressed_separator_range_size(5, 0, 7, 2);
    l.say(
        "D10",
        &format!(
            "stored lengths with m = 0: the Rust {theirs}, with overflow checks a \
         panic; the port {}",
            mine.refusal
        ),
        stops && mine.refusal == 19,
    );
}

// bitwise_memcpy outside its domain
fn copy(l: &mut List) {
    let (mut theirs, mut mine) = ([0u8; 16], [0u8; 16]);
    nomt::bitwise_memcpy(&mut theirs, 0, &[0x80], 0, 1);
    let no = port::bit_copy(&mut mine, 0, &[0x80], 0, 1);
    l.say(
        "copy",
        "a source of 1 byte and 1 bit: the Rust copies nothing, the port the bit",
        theirs[0] == 0 && no == 0 && mine[0] == 0x80,
    );
    let mut other = [0u8; 16];
    let stops = panics(|| nomt::bitwise_memcpy(&mut other, 0, &[0xff, 0xff], 0, 9));
    let no = port::bit_copy(&mut mine, 0, &[0xff, 0xff], 0, 9);
    l.say(
        "copy",
        "of 2 bytes and 9 bits: the Rust panics, the port copies them",
        stops && no == 0 && mine[..3] == [0xff, 0x80, 0],
    );
    let mut theirs = [0u8; 16];
    nomt::bitwise_memcpy(&mut theirs, 0, &[0xff; 16], 0, 1);
    mine = [0; 16];
    port::bit_copy(&mut mine, 0, &[0xff; 16], 0, 1);
    l.say(
        "copy",
        &format!(
            "of 16 bytes and 1 bit: the Rust writes {}, the port one bit",
            hex(&theirs[..9])
        ),
        theirs[1] != 0 && mine[0] == 0x80 && mine[1..] == [0; 15],
    );
}

/// Shows each; true where all are as said.
pub fn run() -> bool {
    if !nomt::PRESENT {
        println!("the Rust's texts are not there: the known differences are not shown");
        return true;
    }
    let mut l = List { good: true };
    for f in [d1, d2, d3, d4, d5, d6, d7, d8, d9, d10, copy] {
        if panics(|| f(&mut l)) {
            l.say("?", "a difference was not shown to its end", false);
        }
    }
    l.good
}
