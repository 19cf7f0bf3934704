//! Bits of a byte slice, most significant first: views, parts of them, and a copy by 64-bit groups.
//! Only what node.rs uses, for `BitSlice<u8, Msb0>`.
use std::marker::PhantomData;
use std::ops::{Index, IndexMut, Range, RangeFrom, RangeTo};

pub mod prelude {
    pub use crate::{BitSlice, BitView, Msb0};
}

pub struct Msb0;

/// A run of bits. A reference to it holds the address of its first byte, and for a length eight
/// times its count of bits and the place of the first bit in that byte.
#[repr(transparent)]
pub struct BitSlice<T, O> {
    kind: PhantomData<(T, O)>,
    held: [()],
}

type Bits = BitSlice<u8, Msb0>;

fn bits<'a>(first: *const u8, at: usize, len: usize) -> &'a Bits {
    let held = std::ptr::slice_from_raw_parts(first as *const (), 8 * len + at);
    unsafe { &*(held as *const Bits) }
}

fn bits_mut<'a>(first: *mut u8, at: usize, len: usize) -> &'a mut Bits {
    let held = std::ptr::slice_from_raw_parts_mut(first as *mut (), 8 * len + at);
    unsafe { &mut *(held as *mut Bits) }
}

impl Bits {
    fn first(&self) -> *const u8 {
        &self.held as *const [()] as *const u8
    }

    fn at(&self) -> usize {
        self.held.len() % 8
    }

    pub fn len(&self) -> usize {
        self.held.len() / 8
    }

    pub fn is_empty(&self) -> bool {
        self.len() == 0
    }

    fn part(&self, from: usize, to: usize) -> (*const u8, usize, usize) {
        assert!(
            from <= to && to <= self.len(),
            "bits {from}..{to} of {}",
            self.len()
        );
        let at = self.at() + from;
        (self.first().wrapping_add(at / 8), at % 8, to - from)
    }

    // from 1 to 64 bits from `from` on, at the number's low end
    fn load(&self, from: usize, count: usize) -> u64 {
        let at = self.at() + from;
        let first = self.first().wrapping_add(at / 8);
        let bytes = (at % 8 + count + 7) / 8;
        let mut x: u64 = 0;
        if bytes >= 8 {
            x = u64::from_be_bytes(unsafe { *(first as *const [u8; 8]) });
        } else {
            for i in 0..bytes {
                x |= (unsafe { *first.add(i) } as u64) << (56 - 8 * i);
            }
        }
        x <<= at % 8;
        if bytes > 8 {
            x |= unsafe { *first.add(8) } as u64 >> (8 - at % 8);
        }
        x >> (64 - count)
    }

    // from 1 to 64 bits to `to`, inside eight bytes
    fn store(&mut self, to: usize, count: usize, value: u64) {
        let at = self.at() + to;
        let first = (self.first() as *mut u8).wrapping_add(at / 8);
        let above = 64 - at % 8 - count;
        let mask = u64::MAX >> (64 - count) << above;
        let value = value << above;
        for i in 0..(at % 8 + count + 7) / 8 {
            let (m, v) = ((mask >> (56 - 8 * i)) as u8, (value >> (56 - 8 * i)) as u8);
            unsafe {
                let p = first.add(i);
                *p = *p & !m | v;
            }
        }
    }

    /// Copies a run of the same length: up to a byte's start, 64 bits at a time, and the rest.
    pub fn copy_from_bitslice(&mut self, src: &Self) {
        assert_eq!(self.len(), src.len(), "runs of one length");
        let len = src.len();
        let mut done = len.min((8 - self.at()) % 8);
        if done > 0 {
            self.store(0, done, src.load(0, done));
        }
        while len - done >= 64 {
            let value = src.load(done, 64);
            let at = (self.at() + done) / 8;
            unsafe { *((self.first() as *mut u8).add(at) as *mut [u8; 8]) = value.to_be_bytes() };
            done += 64;
        }
        if len > done {
            self.store(done, len - done, src.load(done, len - done));
        }
    }
}

impl Index<Range<usize>> for Bits {
    type Output = Bits;
    fn index(&self, r: Range<usize>) -> &Bits {
        let (first, at, len) = self.part(r.start, r.end);
        bits(first, at, len)
    }
}

impl Index<RangeFrom<usize>> for Bits {
    type Output = Bits;
    fn index(&self, r: RangeFrom<usize>) -> &Bits {
        &self[r.start..self.len()]
    }
}

impl Index<RangeTo<usize>> for Bits {
    type Output = Bits;
    fn index(&self, r: RangeTo<usize>) -> &Bits {
        &self[0..r.end]
    }
}

impl IndexMut<Range<usize>> for Bits {
    fn index_mut(&mut self, r: Range<usize>) -> &mut Bits {
        let (first, at, len) = self.part(r.start, r.end);
        bits_mut(first as *mut u8, at, len)
    }
}

impl IndexMut<RangeFrom<usize>> for Bits {
    fn index_mut(&mut self, r: RangeFrom<usize>) -> &mut Bits {
        let end = self.len();
        &mut self[r.start..end]
    }
}

impl IndexMut<RangeTo<usize>> for Bits {
    fn index_mut(&mut self, r: RangeTo<usize>) -> &mut Bits {
        &mut self[0..r.end]
    }
}

/// A place in memory seen as bits.
pub trait BitView {
    fn view_bits<O>(&self) -> &BitSlice<u8, O>
    where
        O: Order;
    fn view_bits_mut<O>(&mut self) -> &mut BitSlice<u8, O>
    where
        O: Order;
}

/// An order of bits: Msb0 alone.
pub trait Order: Sized {
    fn view(bytes: &[u8]) -> &BitSlice<u8, Self>;
    fn view_mut(bytes: &mut [u8]) -> &mut BitSlice<u8, Self>;
}

impl Order for Msb0 {
    fn view(bytes: &[u8]) -> &Bits {
        bits(bytes.as_ptr(), 0, 8 * bytes.len())
    }
    fn view_mut(bytes: &mut [u8]) -> &mut Bits {
        bits_mut(bytes.as_mut_ptr(), 0, 8 * bytes.len())
    }
}

impl BitView for [u8] {
    fn view_bits<O: Order>(&self) -> &BitSlice<u8, O> {
        O::view(self)
    }
    fn view_bits_mut<O: Order>(&mut self) -> &mut BitSlice<u8, O> {
        O::view_mut(self)
    }
}

impl BitView for [u8; 32] {
    fn view_bits<O: Order>(&self) -> &BitSlice<u8, O> {
        O::view(self)
    }
    fn view_bits_mut<O: Order>(&mut self) -> &mut BitSlice<u8, O> {
        O::view_mut(self)
    }
}
