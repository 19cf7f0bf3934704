//! The port over C linkage: the exports of libtrussember.a, by their names and shapes, as safe
//! functions on slices.
use crate::naive::Key;

#[repr(C)]
#[derive(Clone, Copy, Debug, Default, PartialEq)]
pub struct Checked {
    pub refusal: u64,
    pub number: u64,
    pub n: u64,
    pub m: u64,
    pub q: u64,
    pub bits: u64,
}

#[repr(C)]
#[derive(Clone, Copy, Debug, Default, PartialEq)]
pub struct EntryRead {
    pub refusal: u64,
    pub pointer: u64,
}

#[repr(C)]
#[derive(Clone, Copy, Debug, Default, PartialEq)]
pub struct Built {
    pub refusal: u64,
    pub n: u64,
    pub m: u64,
    pub q: u64,
    pub bits: u64,
    pub undo: u64,
}

#[repr(C)]
#[derive(Clone, Copy, Debug, Default, PartialEq)]
pub struct Size {
    pub refusal: u64,
    pub value: u64,
}

extern "C" {
    fn trussember_check(page: *const u8, page_len: usize) -> Checked;
    fn trussember_entry(page: *const u8, page_len: usize, index: usize, key: *mut u8) -> EntryRead;
    fn trussember_bit_copy(
        dst: *mut u8,
        dst_len: usize,
        dst_bit: usize,
        src: *const u8,
        src_len: usize,
        src_bit: usize,
        bits: usize,
    ) -> u64;
    fn trussember_separator_len(key: *const u8) -> u64;
    fn trussember_prefix_len(a: *const u8, b: *const u8) -> u64;
    fn trussember_separate(a: *const u8, b: *const u8, out: *mut u8) -> u64;
    fn trussember_reconstruct_key(
        prefix: *const u8,
        prefix_len: usize,
        prefix_bits: usize,
        separator: *const u8,
        separator_len: usize,
        start: usize,
        bits: usize,
        out: *mut u8,
    ) -> u64;
    fn trussember_body_size(q: u64, sum: u64, n: u64) -> Size;
    fn trussember_uncompressed_separator_range_size(q: u64, sum: u64, n: u64, first: u64) -> Size;
    fn trussember_compressed_separator_range_size(first: u64, m: u64, others: u64, q: u64) -> Size;
    fn trussember_build(
        base: *const u8,
        base_len: usize,
        record: *const u8,
        record_len: usize,
        number: u32,
        page: *mut u8,
        page_len: usize,
        undo: *mut u8,
        undo_len: usize,
    ) -> Built;
}

pub fn check(page: &[u8]) -> Checked {
    unsafe { trussember_check(page.as_ptr(), page.len()) }
}

pub fn entry(page: &[u8], index: usize, key: &mut Key) -> EntryRead {
    unsafe { trussember_entry(page.as_ptr(), page.len(), index, key.as_mut_ptr()) }
}

pub fn build(base: &[u8], record: &[u8], number: u32, page: &mut [u8], undo: &mut [u8]) -> Built {
    unsafe {
        trussember_build(
            base.as_ptr(),
            base.len(),
            record.as_ptr(),
            record.len(),
            number,
            page.as_mut_ptr(),
            page.len(),
            undo.as_mut_ptr(),
            undo.len(),
        )
    }
}

pub fn bit_copy(dst: &mut [u8], dst_bit: usize, src: &[u8], src_bit: usize, bits: usize) -> u64 {
    unsafe {
        trussember_bit_copy(
            dst.as_mut_ptr(),
            dst.len(),
            dst_bit,
            src.as_ptr(),
            src.len(),
            src_bit,
            bits,
        )
    }
}

pub fn separator_len(key: &Key) -> u64 {
    unsafe { trussember_separator_len(key.as_ptr()) }
}

pub fn prefix_len(a: &Key, b: &Key) -> u64 {
    unsafe { trussember_prefix_len(a.as_ptr(), b.as_ptr()) }
}

pub fn separate(a: &Key, b: &Key, out: &mut Key) -> u64 {
    unsafe { trussember_separate(a.as_ptr(), b.as_ptr(), out.as_mut_ptr()) }
}

pub fn reconstruct_key(
    prefix: &[u8],
    p: usize,
    separator: &[u8],
    start: usize,
    s: usize,
    out: &mut Key,
) -> u64 {
    unsafe {
        trussember_reconstruct_key(
            prefix.as_ptr(),
            prefix.len(),
            p,
            separator.as_ptr(),
            separator.len(),
            start,
            s,
            out.as_mut_ptr(),
        )
    }
}

pub fn body_size(q: u64, sum: u64, n: u64) -> Size {
    unsafe { trussember_body_size(q, sum, n) }
}

pub fn uncompressed_separator_range_size(q: u64, sum: u64, n: u64, first: u64) -> Size {
    unsafe { trussember_uncompressed_separator_range_size(q, sum, n, first) }
}

pub fn compressed_separator_range_size(first: u64, m: u64, others: u64, q: u64) -> Size {
    unsafe { trussember_compressed_separator_range_size(first, m, others, q) }
}
