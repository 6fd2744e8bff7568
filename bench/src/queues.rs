//! Two forms of the queue by delay.

use std::cmp::Reverse;
use std::collections::BinaryHeap;

#[derive(Clone, Copy)]
pub struct Candidate {
    pub delay: u32,
    pub load: u32,
    pub node: usize,
    /// has a gate at its node
    pub gated: bool,
}

pub trait Queue {
    fn new() -> Self;
    fn clear(&mut self);
    fn push(&mut self, c: Candidate);
    /// One of least delay.
    fn pop(&mut self) -> Option<Candidate>;
}

/// A binary heap; a candidate is packed into one number, delay first, then load.
pub struct Heap(BinaryHeap<Reverse<u64>>);

impl Queue for Heap {
    fn new() -> Heap {
        Heap(BinaryHeap::with_capacity(1 << 16))
    }

    fn clear(&mut self) {
        self.0.clear();
    }

    #[inline(always)]
    fn push(&mut self, c: Candidate) {
        self.0.push(Reverse((c.delay as u64) << 32 | (c.load as u64) << 16 | (c.node as u64) << 1 | c.gated as u64));
    }

    #[inline(always)]
    fn pop(&mut self) -> Option<Candidate> {
        let Reverse(x) = self.0.pop()?;
        Some(Candidate {
            delay: (x >> 32) as u32,
            load: (x >> 16) as u32 & 0xffff,
            node: (x >> 1) as usize & 0x7fff,
            gated: x & 1 == 1,
        })
    }
}

const NONE: u32 = u32::MAX;

#[derive(Clone, Copy)]
struct Entry {
    next: u32,
    node: u16,
    load: u8,
    gated: bool,
}

/// A bucket for each delay, which is at most 60,000; a two-level bit map finds the next one in use.
pub struct Buckets {
    heads: Vec<u32>,
    words: [u64; 1024],
    groups: [u64; 16],
    entries: Vec<Entry>,
    free: u32,
}

impl Queue for Buckets {
    fn new() -> Buckets {
        Buckets {
            heads: vec![NONE; 1 << 16],
            words: [0; 1024],
            groups: [0; 16],
            entries: Vec::with_capacity(1 << 16),
            free: NONE,
        }
    }

    fn clear(&mut self) {
        for g in 0..self.groups.len() {
            while self.groups[g] != 0 {
                let w = g << 6 | self.groups[g].trailing_zeros() as usize;
                while self.words[w] != 0 {
                    self.heads[w << 6 | self.words[w].trailing_zeros() as usize] = NONE;
                    self.words[w] &= self.words[w] - 1;
                }
                self.groups[g] &= self.groups[g] - 1;
            }
        }
        self.entries.clear();
        self.free = NONE;
    }

    #[inline(always)]
    fn push(&mut self, c: Candidate) {
        let d = c.delay as usize & 0xffff;
        let e = Entry { next: self.heads[d], node: c.node as u16, load: c.load as u8, gated: c.gated };
        let at = if self.free == NONE {
            self.entries.push(e);
            self.entries.len() as u32 - 1
        } else {
            let at = self.free;
            self.free = self.entries[at as usize].next;
            self.entries[at as usize] = e;
            at
        };
        self.heads[d] = at;
        self.words[d >> 6] |= 1 << (d & 63);
        self.groups[d >> 12] |= 1 << (d >> 6 & 63);
    }

    #[inline(always)]
    fn pop(&mut self) -> Option<Candidate> {
        let g = self.groups.iter().position(|&w| w != 0)?;
        let w = g << 6 | self.groups[g].trailing_zeros() as usize;
        let d = w << 6 | self.words[w].trailing_zeros() as usize;
        let at = self.heads[d];
        let e = self.entries[at as usize];
        self.entries[at as usize].next = self.free;
        self.free = at;
        self.heads[d] = e.next;
        if e.next == NONE {
            self.words[w] &= self.words[w] - 1;
            if self.words[w] == 0 {
                self.groups[g] &= self.groups[g] - 1;
            }
        }
        Some(Candidate { delay: d as u32, load: e.load as u32, node: e.node as usize, gated: e.gated })
    }
}
