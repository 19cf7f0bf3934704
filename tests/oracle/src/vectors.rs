//! The naive implementation and the port on a file of cases of document 01.
//! One case a line, tabs between fields: operation, arguments, `=>`, `A` and values, or `R`, the
//! number and two fields, and then lent memory afterwards.
use crate::naive::{self, Key};
use crate::{port, told};
use std::collections::BTreeMap;

// a buffer for a key, before it is lent
const LENT: Key = [7; 32];

pub fn unhex(s: &str) -> Vec<u8> {
    if s == "-" {
        return vec![];
    }
    (0..s.len() / 2)
        .map(|i| u8::from_str_radix(&s[2 * i..2 * i + 2], 16).expect("hex"))
        .collect()
}

pub fn hex(bytes: &[u8]) -> String {
    if bytes.is_empty() {
        return "-".to_string();
    }
    bytes.iter().map(|b| format!("{b:02x}")).collect()
}

fn key(s: &str) -> Key {
    unhex(s).try_into().expect("a key of 32 bytes")
}

fn num(s: &str) -> u64 {
    s.parse().expect("a number")
}

fn answer<T>(r: &Result<T, u64>, values: impl Fn(&T) -> Vec<String>) -> Vec<String> {
    match r {
        Ok(v) => {
            let mut all = vec!["A".to_string()];
            all.extend(values(v));
            all
        }
        Err(n) => vec!["R".to_string(), n.to_string()],
    }
}

fn numbers(all: &[usize]) -> Vec<String> {
    all.iter().map(|v| v.to_string()).collect()
}

// what is answered, as the fields of a line but the two to skip; and whether the port says the same
type Case = (Vec<String>, bool);

fn number(naive: usize, mine: u64) -> Case {
    (answer(&Ok(naive), |n| numbers(&[*n])), mine == naive as u64)
}

fn size(naive: Result<u64, u64>, mine: port::Size) -> Case {
    let fields = answer(&naive, |v| vec![v.to_string()]);
    (fields, mine == told::size(naive))
}

// one of the two conversions between lengths, of four numbers
fn lengths(
    x: &[&str],
    naive: fn(u64, u64, u64, u64) -> Result<u64, u64>,
    port: fn(u64, u64, u64, u64) -> port::Size,
) -> Case {
    let (a, b, c, d) = (num(x[0]), num(x[1]), num(x[2]), num(x[3]));
    size(naive(a, b, c, d), port(a, b, c, d))
}

// a key that is written to a buffer of LENT
fn written(naive: Result<Key, u64>, mine: impl FnOnce(&mut Key) -> u64) -> Case {
    let mut out = LENT;
    let same = (mine(&mut out), out) == told::written(naive, &LENT);
    (answer(&naive, |k| vec![hex(k)]), same)
}

fn case(op: &str, x: &[&str]) -> Case {
    match op {
        "sep_len" => {
            let k = key(x[0]);
            number(naive::separator_len(&k), port::separator_len(&k))
        }
        "shared" => {
            let (a, b) = (key(x[0]), key(x[1]));
            number(naive::shared(&a, &b), port::prefix_len(&a, &b))
        }
        "separate" => {
            let (a, b) = (key(x[0]), key(x[1]));
            written(naive::separate(&a, &b), |out| port::separate(&a, &b, out))
        }
        "copy" => {
            let (dst, src) = (unhex(x[0]), unhex(x[2]));
            let (to, from, len) = (num(x[1]), num(x[3]), num(x[4]));
            let (mut plain, mut mine) = (dst.clone(), dst);
            let r = naive::bit_copy(&mut plain, to, &src, from, len);
            let no = port::bit_copy(&mut mine, to as usize, &src, from as usize, len as usize);
            let mut fields = answer(&r, |_| vec![]);
            fields.push(hex(&plain));
            (fields, no == r.err().unwrap_or(0) && mine == plain)
        }
        "rebuild" => {
            let (prefix, sep) = (unhex(x[0]), unhex(x[2]));
            let (p, start, s) = (num(x[1]), num(x[3]), num(x[4]));
            written(naive::rebuild(&prefix, p, &sep, start, s), |out| {
                port::reconstruct_key(&prefix, p as usize, &sep, start as usize, s as usize, out)
            })
        }
        "body" => {
            let (q, sum, n) = (num(x[0]), num(x[1]), num(x[2]));
            size(naive::body_size(q, sum, n), port::body_size(q, sum, n))
        }
        "whole" => lengths(
            x,
            naive::whole_from_stored,
            port::uncompressed_separator_range_size,
        ),
        "stored" => lengths(
            x,
            naive::stored_from_whole,
            port::compressed_separator_range_size,
        ),
        "check" => {
            let page = unhex(x[0]);
            let r = naive::check(&page);
            let fields = answer(&r, |h| numbers(&[h.number as usize, h.n, h.m, h.q, h.bits]));
            (fields, port::check(&page) == told::checked(r))
        }
        "entry" => {
            let (page, index) = (unhex(x[0]), num(x[1]));
            let r = naive::entry(&page, index);
            let mut out = LENT;
            let mine = port::entry(&page, index as usize, &mut out);
            let fields = answer(&r, |e| vec![hex(&e.key), e.pointer.to_string()]);
            (fields, (mine, out) == told::entry(r, &LENT))
        }
        "build" => {
            let (base, record, number) = (unhex(x[0]), unhex(x[1]), num(x[2]) as u32);
            let (mut page, mut undo) = (unhex(x[3]), unhex(x[4]));
            let (mut page2, mut undo2) = (page.clone(), undo.clone());
            let r = naive::build(&base, &record, number, &mut page, &mut undo);
            let mine = port::build(&base, &record, number, &mut page2, &mut undo2);
            let mut fields = answer(&r, |b| numbers(&[b.n, b.m, b.q, b.bits, b.undo]));
            fields.push(hex(&page));
            fields.push(hex(&undo));
            let same = mine == told::built(r) && page2 == page && undo2 == undo;
            (fields, same)
        }
        _ => panic!("an operation that is not known: {op}"),
    }
}

/// Runs the file's cases; true where none differs.
pub fn run(path: &str) -> bool {
    let text = std::fs::read_to_string(path).expect("the file of cases");
    let mut counts: BTreeMap<&str, (u64, u64)> = BTreeMap::new();
    let mut bad = 0;
    for (i, line) in text.lines().enumerate() {
        let fields: Vec<&str> = line.split('\t').collect();
        let arrow = fields.iter().position(|f| *f == "=>").expect("an arrow");
        let mut wanted: Vec<String> = fields[arrow + 1..].iter().map(|s| s.to_string()).collect();
        if wanted[0] == "R" {
            wanted.drain(2..4);
        }
        let (got, same) = case(fields[0], &fields[1..arrow]);
        let c = counts.entry(fields[0]).or_default();
        c.0 += 1;
        if got != wanted {
            bad += 1;
            println!("line {}: naive differs: {}", i + 1, fields[0]);
        }
        if !same {
            bad += 1;
            println!("line {}: the port differs: {}", i + 1, fields[0]);
        }
        c.1 += (wanted[0] == "R") as u64;
    }
    for (op, (all, refused)) in counts {
        println!("{op:10} {all:6} cases, {refused:6} refused");
    }
    println!("port and naive: {bad} differences");
    bad == 0
}
