//! Two forms of a node's candidate list, in which none prunes another.

pub trait List {
    const EMPTY: Self;
    fn clear(&mut self);
    /// Whether one of them has no more load and no more delay.
    fn prunes(&self, load: u32, delay: u32) -> bool;
    /// Adds one that is not pruned, and takes out those that it prunes.
    fn insert(&mut self, load: u32, delay: u32);
    /// Whether this one, once added, is still there.
    fn holds(&self, load: u32, delay: u32) -> bool;
}

const LOADS: usize = 64;

/// The candidates by load, upward; so their delays go down.
pub struct Sorted {
    count: usize,
    items: [(u16, u16); LOADS],
}

impl Sorted {
    /// How many have less load than this. A search from the start is faster here than by halves.
    #[inline(always)]
    fn below(&self, load: u32) -> usize {
        self.items[..self.count].iter().position(|x| x.0 as u32 >= load).unwrap_or(self.count)
    }
}

impl List for Sorted {
    const EMPTY: Sorted = Sorted { count: 0, items: [(0, 0); LOADS] };

    #[inline(always)]
    fn clear(&mut self) {
        self.count = 0;
    }

    #[inline(always)]
    fn prunes(&self, load: u32, delay: u32) -> bool {
        for &(l, d) in &self.items[..self.count] {
            if l as u32 > load {
                return false;
            }
            if d as u32 <= delay {
                return true;
            }
        }
        false
    }

    #[inline(always)]
    fn insert(&mut self, load: u32, delay: u32) {
        let from = self.below(load);
        let mut to = from;
        while to < self.count && self.items[to].1 as u32 >= delay {
            to += 1;
        }
        self.items.copy_within(to..self.count, from + 1);
        self.items[from] = (load as u16, delay as u16);
        self.count = self.count + 1 - (to - from);
    }

    #[inline(always)]
    fn holds(&self, load: u32, delay: u32) -> bool {
        let i = self.below(load);
        i < self.count && self.items[i] == (load as u16, delay as u16)
    }
}

/// For each load the least delay of a candidate with at most that load: a test is one read. Loads are at most 63.
pub struct Staircase([u16; LOADS]);

impl List for Staircase {
    const EMPTY: Staircase = Staircase([u16::MAX; LOADS]);

    #[inline(always)]
    fn clear(&mut self) {
        *self = Self::EMPTY;
    }

    #[inline(always)]
    fn prunes(&self, load: u32, delay: u32) -> bool {
        self.0[load as usize & 63] as u32 <= delay
    }

    #[inline(always)]
    fn insert(&mut self, load: u32, delay: u32) {
        for x in &mut self.0[load as usize & 63..] {
            *x = (*x).min(delay as u16);
        }
    }

    #[inline(always)]
    fn holds(&self, load: u32, delay: u32) -> bool {
        let at = load as usize & 63;
        self.0[at] as u32 == delay && (at == 0 || self.0[at - 1] as u32 > delay)
    }
}
