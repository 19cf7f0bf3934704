//! Document 01 in plain Rust, as it reads: bits are a vector of bools, nothing is clever. Refusals
//! are their numbers.

pub type Key = [u8; 32];
pub type Bits = Vec<bool>;

pub const PAGE: usize = 4096;
pub const BODY: usize = 4086;
/// A length that no undo record exceeds.
pub const UNDO: usize = 24_688;

#[derive(Clone, Copy, Debug, PartialEq)]
pub struct Entry {
    pub key: Key,
    pub pointer: u32,
}

#[derive(Clone, Copy, Debug, PartialEq)]
pub struct Header {
    pub number: u32,
    pub n: usize,
    pub m: usize,
    pub q: usize,
    pub bits: usize,
}

#[derive(Clone, Copy, Debug, PartialEq)]
pub struct Choice {
    pub m: usize,
    pub q: usize,
    pub bits: usize,
}

#[derive(Clone, Copy, Debug, PartialEq)]
pub enum Edit {
    Insert(Key, u32),
    Update(usize, u32),
    Keep(usize, usize),
}

#[derive(Clone, Copy, Debug, PartialEq)]
pub struct Numbers {
    pub n: usize,
    pub m: usize,
    pub q: usize,
    pub bits: usize,
    pub undo: usize,
}

// ---- bits

pub fn bits_of(bytes: &[u8]) -> Bits {
    let mut bits = Vec::with_capacity(8 * bytes.len());
    for b in bytes {
        for i in 0..8 {
            bits.push(b >> (7 - i) & 1 == 1);
        }
    }
    bits
}

// zero bits up to the last byte's end
pub fn bytes_of(bits: &[bool]) -> Vec<u8> {
    let mut bytes = vec![0; (bits.len() + 7) / 8];
    for (i, b) in bits.iter().enumerate() {
        if *b {
            bytes[i / 8] |= 128 >> (i % 8);
        }
    }
    bytes
}

fn key_of(bits: &[bool]) -> Key {
    let mut all = bits.to_vec();
    all.resize(256, false);
    bytes_of(&all).try_into().unwrap()
}

fn number_of(bits: &[bool]) -> usize {
    bits.iter().fold(0, |n, b| 2 * n + *b as usize)
}

fn put_number(bits: &mut Bits, width: usize, number: usize) {
    for i in (0..width).rev() {
        bits.push(number >> i & 1 == 1);
    }
}

// ---- keys

pub fn separator_len(key: &Key) -> usize {
    let bits = bits_of(key);
    let mut zeros = 0;
    while zeros < 256 && !bits[255 - zeros] {
        zeros += 1;
    }
    if zeros == 256 {
        1
    } else {
        256 - zeros
    }
}

pub fn shared(a: &Key, b: &Key) -> usize {
    let (a, b) = (bits_of(a), bits_of(b));
    let mut n = 0;
    while n < 256 && a[n] == b[n] {
        n += 1;
    }
    n
}

pub fn separate(a: &Key, b: &Key) -> Result<Key, u64> {
    if a >= b {
        return Err(17);
    }
    Ok(key_of(&bits_of(b)[..shared(a, b) + 1]))
}

// ---- ranges of bits

fn inside(bytes: usize, at: u64, len: u64) -> bool {
    len == 0 || at as u128 + len as u128 <= 8 * bytes as u128
}

fn part(bytes: &[u8], at: u64, len: u64) -> Bits {
    if len == 0 {
        return vec![];
    }
    bits_of(bytes)[at as usize..][..len as usize].to_vec()
}

pub fn bit_copy(
    dst: &mut [u8],
    dst_bit: u64,
    src: &[u8],
    src_bit: u64,
    len: u64,
) -> Result<(), u64> {
    if !inside(dst.len(), dst_bit, len) || !inside(src.len(), src_bit, len) {
        return Err(18);
    }
    let mut bits = bits_of(dst);
    for (i, b) in part(src, src_bit, len).into_iter().enumerate() {
        bits[dst_bit as usize + i] = b;
    }
    dst.copy_from_slice(&bytes_of(&bits));
    Ok(())
}

pub fn rebuild(prefix: &[u8], p: u64, separator: &[u8], start: u64, s: u64) -> Result<Key, u64> {
    if !inside(prefix.len(), 0, p) || !inside(separator.len(), start, s) {
        return Err(18);
    }
    if p as u128 + s as u128 > 256 {
        return Err(19);
    }
    let mut bits = part(prefix, 0, p);
    bits.extend(part(separator, start, s));
    Ok(key_of(&bits))
}

// ---- size formulas, exact

fn exact(plus: u128, minus: u128) -> Result<u64, u64> {
    if plus < minus || plus - minus > u64::MAX as u128 {
        return Err(19);
    }
    Ok((plus - minus) as u64)
}

pub fn body_size(q: u64, sum: u64, n: u64) -> Result<u64, u64> {
    exact(6 * n as u128 + (q as u128 + sum as u128 + 7) / 8, 0)
}

pub fn whole_from_stored(q: u64, sum: u64, n: u64, first: u64) -> Result<u64, u64> {
    exact(
        sum as u128 + q as u128 * n as u128,
        q.saturating_sub(first) as u128,
    )
}

pub fn stored_from_whole(first: u64, m: u64, others: u64, q: u64) -> Result<u64, u64> {
    if m == 0 {
        return Err(19);
    }
    let plus = first.saturating_sub(q) as u128 + others as u128;
    exact(plus, (m as u128 - 1) * q as u128)
}

// ---- the page

/// A number of few bytes, the lowest first.
pub fn le(bytes: &[u8]) -> usize {
    bytes.iter().rev().fold(0, |n, b| 256 * n + *b as usize)
}

fn end_of(page: &[u8], i: usize) -> usize {
    le(&page[10 + 2 * i..][..2])
}

fn start_of(page: &[u8], i: usize) -> usize {
    if i == 0 {
        0
    } else {
        end_of(page, i - 1)
    }
}

pub fn check(page: &[u8]) -> Result<Header, u64> {
    if page.len() != PAGE {
        return Err(1);
    }
    let (n, m, q) = (le(&page[4..6]), le(&page[6..8]), le(&page[8..10]));
    if n == 0 {
        return Err(2);
    }
    if m == 0 || m > n {
        return Err(3);
    }
    if q > 256 {
        return Err(4);
    }
    if 6 * n > BODY || 6 * n + (q + end_of(page, n - 1) + 7) / 8 > BODY {
        return Err(5);
    }
    for i in 0..n {
        if end_of(page, i) < start_of(page, i) {
            return Err(6);
        }
    }
    for i in 0..n {
        let bits = if i < m { q } else { 0 } + end_of(page, i) - start_of(page, i);
        if bits == 0 || bits > 256 {
            return Err(7);
        }
    }
    let all = entries(page);
    for i in 1..n {
        if all[i - 1].key >= all[i].key {
            return Err(8);
        }
    }
    let number = le(&page[0..4]) as u32;
    Ok(Header {
        number,
        n,
        m,
        q,
        bits: q + end_of(page, n - 1),
    })
}

// the entries of a page that 1 to 7 accept
fn entries(page: &[u8]) -> Vec<Entry> {
    let (n, m, q) = (le(&page[4..6]), le(&page[6..8]), le(&page[8..10]));
    let body = bits_of(&page[10 + 2 * n..]);
    let mut all = vec![];
    for i in 0..n {
        let mut key = if i < m { body[..q].to_vec() } else { vec![] };
        key.extend(&body[q + start_of(page, i)..q + end_of(page, i)]);
        let pointer = le(&page[PAGE - 4 * n + 4 * i..][..4]) as u32;
        all.push(Entry {
            key: key_of(&key),
            pointer,
        });
    }
    all
}

/// The entries of an accepted page; of a base with no bytes, none.
pub fn entries_of(page: &[u8]) -> Vec<Entry> {
    if page.is_empty() {
        return vec![];
    }
    entries(page)
}

pub fn entry(page: &[u8], index: u64) -> Result<Entry, u64> {
    let h = check(page)?;
    if index >= h.n as u64 {
        return Err(16);
    }
    Ok(entries(page)[index as usize])
}

// ---- the normal page

/// Stored lengths of a choice, from the separator lengths.
pub fn stored(lens: &[usize], m: usize, q: usize) -> impl Iterator<Item = usize> + '_ {
    let skipped = move |i| if i < m { q } else { 0 };
    let all = lens.iter().enumerate();
    all.map(move |(i, len)| len.saturating_sub(skipped(i)))
}

/// Bits of a choice, from the separator lengths.
pub fn choice_bits(lens: &[usize], m: usize, q: usize) -> usize {
    q + stored(lens, m, q).sum::<usize>()
}

/// The shared bits of the first m keys, for m from 1 on; 256 for one.
pub fn shared_of_first(keys: &[Key]) -> Vec<usize> {
    let mut shares = vec![256];
    for i in 1..keys.len() {
        shares.push(shares[i - 1].min(shared(&keys[0], &keys[i])));
    }
    shares
}

pub fn choice(keys: &[Key]) -> Choice {
    let lens = lens_of(keys);
    let shares = shared_of_first(keys);
    let mut best = Choice {
        m: 1,
        q: 0,
        bits: choice_bits(&lens, 1, 0),
    };
    for m in 2..=keys.len() {
        let q = shares[m - 1];
        let bits = choice_bits(&lens, m, q);
        if bits <= best.bits {
            best = Choice { m, q, bits };
        }
    }
    best
}

pub fn body_bytes(n: usize, bits: usize) -> usize {
    6 * n + (bits + 7) / 8
}

pub fn keys_of(entries: &[Entry]) -> Vec<Key> {
    entries.iter().map(|e| e.key).collect()
}

/// The separator lengths.
pub fn lens_of(keys: &[Key]) -> Vec<usize> {
    keys.iter().map(separator_len).collect()
}

/// A page with m and q; stored lengths as they are given.
pub fn page_with(number: u32, entries: &[Entry], m: usize, q: usize, lens: &[usize]) -> Vec<u8> {
    let n = entries.len();
    let mut page = number.to_le_bytes().to_vec();
    for x in [n, m, q] {
        page.extend((x as u16).to_le_bytes());
    }
    let mut body = bits_of(&entries[0].key)[..q].to_vec();
    let mut end = 0;
    for (i, e) in entries.iter().enumerate() {
        let skipped = if i < m { q } else { 0 };
        body.extend(&bits_of(&e.key)[skipped..skipped + lens[i]]);
        end += lens[i];
        page.extend((end as u16).to_le_bytes());
    }
    page.extend(bytes_of(&body));
    assert!(page.len() + 4 * n <= PAGE);
    page.resize(PAGE - 4 * n, 0);
    for e in entries {
        page.extend(e.pointer.to_le_bytes());
    }
    page
}

pub fn normal_page(number: u32, entries: &[Entry]) -> Vec<u8> {
    let keys = keys_of(entries);
    let c = choice(&keys);
    let lens: Vec<usize> = stored(&lens_of(&keys), c.m, c.q).collect();
    page_with(number, entries, c.m, c.q, &lens)
}

pub fn fits(entries: &[Entry]) -> bool {
    body_bytes(entries.len(), choice(&keys_of(entries)).bits) <= BODY
}

// ---- edit records

pub fn read_record(record: &[u8]) -> Option<Vec<Edit>> {
    let bits = bits_of(record);
    let mut at = 0;
    let mut take = |width: usize| -> Option<Bits> {
        let field = bits.get(at..at + width)?.to_vec();
        at += width;
        Some(field)
    };
    let count = number_of(&take(10)?);
    let mut edits = vec![];
    for _ in 0..count {
        edits.push(match number_of(&take(2)?) {
            0 => Edit::Insert(key_of(&take(256)?), number_of(&take(32)?) as u32),
            1 => Edit::Update(number_of(&take(10)?), number_of(&take(32)?) as u32),
            2 => Edit::Keep(number_of(&take(10)?), number_of(&take(10)?)),
            _ => return None,
        });
    }
    let rest = &bits[at..];
    if rest.len() >= 8 || rest.contains(&true) {
        return None;
    }
    Some(edits)
}

pub fn write_record(edits: &[Edit]) -> Vec<u8> {
    let mut bits = vec![];
    put_number(&mut bits, 10, edits.len());
    for e in edits {
        match e {
            Edit::Insert(key, pointer) => {
                put_number(&mut bits, 2, 0);
                bits.extend(bits_of(key));
                put_number(&mut bits, 32, *pointer as usize);
            }
            Edit::Update(position, pointer) => {
                put_number(&mut bits, 2, 1);
                put_number(&mut bits, 10, *position);
                put_number(&mut bits, 32, *pointer as usize);
            }
            Edit::Keep(start, end) => {
                put_number(&mut bits, 2, 2);
                put_number(&mut bits, 10, *start);
                put_number(&mut bits, 10, *end);
            }
        }
    }
    bytes_of(&bits)
}

pub fn inserts(entries: &[Entry]) -> Vec<Edit> {
    entries
        .iter()
        .map(|e| Edit::Insert(e.key, e.pointer))
        .collect()
}

pub fn apply(base: &[Entry], edits: &[Edit]) -> Vec<Entry> {
    let mut new = vec![];
    for e in edits {
        match *e {
            Edit::Insert(key, pointer) => new.push(Entry { key, pointer }),
            Edit::Update(position, pointer) => new.push(Entry {
                key: base[position].key,
                pointer,
            }),
            Edit::Keep(start, end) => new.extend(&base[start..end]),
        }
    }
    new
}

pub fn undo(base: &[Entry], new: &[Entry]) -> Vec<Edit> {
    let mut edits: Vec<Edit> = vec![];
    // where in the base the last edit was a Keep
    let mut kept = None;
    for (i, b) in base.iter().enumerate() {
        match new.iter().position(|e| e.key == b.key) {
            None => edits.push(Edit::Insert(b.key, b.pointer)),
            Some(p) if new[p].pointer != b.pointer => edits.push(Edit::Update(p, b.pointer)),
            Some(p) => {
                match edits.last_mut() {
                    Some(Edit::Keep(_, end)) if i > 0 && kept == Some(i - 1) && *end == p => {
                        *end += 1
                    }
                    _ => edits.push(Edit::Keep(p, p + 1)),
                }
                kept = Some(i);
            }
        }
    }
    edits
}

// ---- build

pub fn build(
    base: &[u8],
    record: &[u8],
    number: u32,
    page: &mut [u8],
    undo_to: &mut [u8],
) -> Result<Numbers, u64> {
    if !base.is_empty() {
        check(base)?;
    }
    if page.len() != PAGE {
        return Err(9);
    }
    let Some(edits) = read_record(record) else {
        return Err(10);
    };
    let old = entries_of(base);
    let outside = |e: &Edit| match *e {
        Edit::Insert(..) => false,
        Edit::Update(position, _) => position >= old.len(),
        Edit::Keep(start, end) => start >= end || end > old.len(),
    };
    if edits.iter().any(outside) {
        return Err(11);
    }
    if edits.is_empty() {
        return Err(12);
    }
    let new = apply(&old, &edits);
    if new.windows(2).any(|w| w[0].key >= w[1].key) {
        return Err(13);
    }
    if !fits(&new) {
        return Err(14);
    }
    let back = write_record(&undo(&old, &new));
    if undo_to.len() < back.len() {
        return Err(15);
    }
    let c = choice(&keys_of(&new));
    page.copy_from_slice(&normal_page(number, &new));
    undo_to[..back.len()].copy_from_slice(&back);
    Ok(Numbers {
        n: new.len(),
        m: c.m,
        q: c.q,
        bits: c.bits,
        undo: back.len(),
    })
}
