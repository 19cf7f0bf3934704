//! The Rust's `bit_ops.rs`, `node.rs` and `branch_ops.rs`, unchanged, with stand-ins for what they
//! take from elsewhere, and plain functions over them. With no texts, the functions stop the run.
#![allow(dead_code, unused, clippy::all)]

pub type Key = [u8; 32];

#[cfg(text)]
mod beatree {
    pub use crate::Key;
    pub use allocator::PageNumber;

    pub mod allocator {
        #[derive(Clone, Copy, Debug)]
        pub struct PageNumber(pub u32);
    }

    pub mod branch {
        // the number that the texts do not hold
        pub const BRANCH_NODE_SIZE: usize = 4096;

        pub mod node {
            include!(concat!(env!("OUT_DIR"), "/node.rs"));
        }
    }

    pub mod ops {
        pub mod bit_ops {
            include!(concat!(env!("OUT_DIR"), "/bit_ops.rs"));
        }

        pub mod update {
            pub const BRANCH_MERGE_THRESHOLD: usize = 2043;

            pub mod branch_ops {
                include!(concat!(env!("OUT_DIR"), "/branch_ops.rs"));
            }

            // a base, and a gauge that counts nothing: enough for the tracker's own steps
            pub mod branch_updater {
                use super::branch_ops::{BranchOp, KeepChunk};
                use crate::beatree::branch::node::{get_key, BranchNode};
                use crate::beatree::{Key, PageNumber};

                pub struct BaseBranch {
                    pub node: BranchNode,
                }

                impl BaseBranch {
                    pub fn key(&self, i: usize) -> Key {
                        get_key(&self.node, i)
                    }

                    pub fn key_value(&self, i: usize) -> (Key, PageNumber) {
                        (self.key(i), PageNumber(self.node.node_pointer(i)))
                    }
                }

                #[derive(Clone, Default)]
                pub struct BranchGauge {
                    pub prefix_compressed: Option<usize>,
                }

                impl BranchGauge {
                    pub fn ingest_branch_op(&mut self, _: Option<&BaseBranch>, _: &BranchOp) {}
                    pub fn ingest_key(&mut self, _: Key, _: usize) {}
                    pub fn stop_prefix_compression(&mut self) {}
                    pub fn body_size(&self) -> usize {
                        0
                    }
                    pub fn body_size_after(&self, _: Key, _: usize) -> usize {
                        0
                    }
                    pub fn body_size_after_chunk(&self, _: &BaseBranch, _: &KeepChunk) -> usize {
                        0
                    }
                }
            }
        }
    }
}

#[cfg(text)]
mod io {
    use std::ops::{Deref, DerefMut};

    pub mod page_pool {
        pub struct Page;
    }

    pub struct PagePool;

    // a heap page of 4,096 bytes
    pub struct FatPage(pub Box<[u8; 4096]>);

    impl PagePool {
        pub fn alloc_fat_page(&self) -> FatPage {
            FatPage(Box::new([0; 4096]))
        }
    }

    impl FatPage {
        pub fn page(&self) -> page_pool::Page {
            page_pool::Page
        }
    }

    impl Deref for FatPage {
        type Target = [u8];
        fn deref(&self) -> &[u8] {
            &self.0[..]
        }
    }

    impl DerefMut for FatPage {
        fn deref_mut(&mut self) -> &mut [u8] {
            &mut self.0[..]
        }
    }
}

#[cfg(text)]
mod over {
    use crate::beatree::branch::node::{self, BranchNode, BranchNodeBuilder};
    use crate::beatree::ops::bit_ops;
    use crate::beatree::ops::update::branch_ops::{BranchOp, BranchOpsTracker};
    use crate::beatree::ops::update::branch_updater::BaseBranch;
    use crate::beatree::PageNumber;
    use crate::io::PagePool;
    use crate::Key;

    pub const PRESENT: bool = true;
    pub const BIT_OPS: &str = include_str!(concat!(env!("OUT_DIR"), "/bit_ops.rs"));
    pub const NODE: &str = include_str!(concat!(env!("OUT_DIR"), "/node.rs"));

    // Each is kept whole here, where this crate's overflow checks are the ones that count.

    #[inline(never)]
    pub fn separate(a: &Key, b: &Key) -> Key {
        bit_ops::separate(a, b)
    }

    #[inline(never)]
    pub fn prefix_len(a: &Key, b: &Key) -> usize {
        bit_ops::prefix_len(a, b)
    }

    #[inline(never)]
    pub fn separator_len(key: &Key) -> usize {
        bit_ops::separator_len(key)
    }

    #[inline(never)]
    pub fn bitwise_memcpy(dst: &mut [u8], dst_bit: usize, src: &[u8], src_bit: usize, len: usize) {
        bit_ops::bitwise_memcpy(dst, dst_bit, src, src_bit, len)
    }

    #[inline(never)]
    pub fn reconstruct_key(
        prefix: Option<(&[u8], usize)>,
        separator: (&[u8], usize, usize),
    ) -> Key {
        bit_ops::reconstruct_key(prefix, separator)
    }

    #[inline(never)]
    pub fn body_size(q: usize, sum: usize, n: usize) -> usize {
        node::body_size(q, sum, n)
    }

    #[inline(never)]
    pub fn uncompressed_separator_range_size(
        q: usize,
        sum: usize,
        n: usize,
        first: usize,
    ) -> usize {
        node::uncompressed_separator_range_size(q, sum, n, first)
    }

    #[inline(never)]
    pub fn compressed_separator_range_size(
        first: usize,
        m: usize,
        others: usize,
        q: usize,
    ) -> usize {
        node::compressed_separator_range_size(first, m, others, q)
    }

    /// A page.
    pub struct Node(BranchNode);

    impl Node {
        /// Of bytes that are there already.
        pub fn of(bytes: &[u8]) -> Node {
            let mut node = BranchNode::new_in(&PagePool);
            node.as_mut_slice().copy_from_slice(bytes);
            Node(node)
        }

        pub fn bytes(&self) -> &[u8] {
            self.0.as_slice()
        }

        pub fn bytes_mut(&mut self) -> &mut [u8] {
            self.0.as_mut_slice()
        }

        #[inline(never)]
        pub fn key(&self, i: usize) -> Key {
            node::get_key(&self.0, i)
        }

        #[inline(never)]
        pub fn pointer(&self, i: usize) -> u32 {
            self.0.node_pointer(i)
        }
    }

    /// The builder, over a page that is handed in and back.
    pub struct Builder(BranchNodeBuilder);

    impl Builder {
        #[inline(never)]
        pub fn new(page: Node, number: u32, n: usize, m: usize, q: usize) -> Builder {
            let mut node = page.0;
            node.set_bbn_pn(number);
            Builder(BranchNodeBuilder::new(node, n, m, q))
        }

        #[inline(never)]
        pub fn push(&mut self, key: Key, separator_len: usize, pointer: u32) {
            self.0.push(key, separator_len, pointer);
        }

        #[inline(never)]
        pub fn push_chunk(
            &mut self,
            base: &Node,
            from: usize,
            to: usize,
            updated: &[(usize, u32)],
        ) {
            let updated = updated.iter().map(|&(i, p)| (i, PageNumber(p)));
            self.0.push_chunk(&base.0, from, to, updated);
        }

        pub fn finish(self) -> Node {
            Node(self.0.finish())
        }
    }

    /// What the tracker makes of one chunk: the keys of its inserts, and the chunks, by start and
    /// end.
    #[inline(never)]
    pub fn tracked(base: &[u8], start: usize, end: usize) -> (Vec<Key>, Vec<(usize, usize)>) {
        let base = BaseBranch {
            node: Node::of(base).0,
        };
        let mut tracker = BranchOpsTracker::new();
        tracker.push_chunk(&base, start, end);
        let (ops, _) = tracker.extract_ops();
        let (mut keys, mut chunks) = (vec![], vec![]);
        for op in ops.iter() {
            match op {
                BranchOp::Insert(key, _) => keys.push(*key),
                BranchOp::Update(..) => {}
                BranchOp::KeepChunk(c) => chunks.push((c.start, c.end)),
            }
        }
        (keys, chunks)
    }
}

#[cfg(not(text))]
mod over {
    use crate::Key;

    pub const PRESENT: bool = false;
    pub const BIT_OPS: &str = "";
    pub const NODE: &str = "";

    fn missing() -> ! {
        panic!("the Rust's texts are not there")
    }

    pub fn separate(_: &Key, _: &Key) -> Key {
        missing()
    }
    pub fn prefix_len(_: &Key, _: &Key) -> usize {
        missing()
    }
    pub fn separator_len(_: &Key) -> usize {
        missing()
    }
    pub fn reconstruct_key(_: Option<(&[u8], usize)>, _: (&[u8], usize, usize)) -> Key {
        missing()
    }
    pub fn bitwise_memcpy(_: &mut [u8], _: usize, _: &[u8], _: usize, _: usize) {
        missing()
    }
    pub fn body_size(_: usize, _: usize, _: usize) -> usize {
        missing()
    }
    pub fn uncompressed_separator_range_size(_: usize, _: usize, _: usize, _: usize) -> usize {
        missing()
    }
    pub fn compressed_separator_range_size(_: usize, _: usize, _: usize, _: usize) -> usize {
        missing()
    }
    pub fn tracked(_: &[u8], _: usize, _: usize) -> (Vec<Key>, Vec<(usize, usize)>) {
        missing()
    }

    pub struct Node;

    impl Node {
        pub fn of(_: &[u8]) -> Node {
            missing()
        }
        pub fn bytes(&self) -> &[u8] {
            missing()
        }
        pub fn bytes_mut(&mut self) -> &mut [u8] {
            missing()
        }
        pub fn key(&self, _: usize) -> Key {
            missing()
        }
        pub fn pointer(&self, _: usize) -> u32 {
            missing()
        }
    }

    pub struct Builder;

    impl Builder {
        pub fn new(_: Node, _: u32, _: usize, _: usize, _: usize) -> Builder {
            missing()
        }
        pub fn push(&mut self, _: Key, _: usize, _: u32) {
            missing()
        }
        pub fn push_chunk(&mut self, _: &Node, _: usize, _: usize, _: &[(usize, u32)]) {
            missing()
        }
        pub fn finish(self) -> Node {
            missing()
        }
    }
}

pub use over::*;
