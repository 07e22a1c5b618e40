//! The exported functions of crate bridge_stages. Each takes a level and answers 0 or a number; what a stage makes lies in the
//! work slice, and is read from there.

mod exported {
    macro_rules! on_a_level {
        ($($name:ident ($($more:ident : $type:ty),*);)*) => {
            unsafe extern "C" {
                $(pub fn $name(
                    offsets: *const u32,
                    offsets_len: usize,
                    neighbors: *const u32,
                    neighbors_len: usize,
                    weights: *const u32,
                    weights_len: usize,
                    owners: *const u32,
                    owners_len: usize,
                    ranks: u32,
                    $($more: $type),*
                ) -> u32;)*
            }
        };
    }
    on_a_level! {
        bridge_coarsen(work: *mut u32, work_len: usize, counts: *mut [u64; 4]);
        bridge_seeds(work: *mut u32, work_len: usize);
        bridge_growth(cap: u64, work: *mut u32, work_len: usize, restarts: *mut u64);
        bridge_moves(floor: u64, cap: u64, passes: u64, work: *mut u32, work_len: usize, moves: *mut u64);
        bridge_swaps(floor: u64, cap: u64, passes: u64, list_length: u32, work: *mut u32, work_len: usize, swaps: *mut u64);
    }
}
use exported::*;

/// A level as it is lent: its lists, a weight and an owner for each vertex, and the number of ranks.
#[derive(Clone, Debug)]
pub struct Level {
    pub offsets: Vec<u32>,
    pub neighbors: Vec<u32>,
    pub weights: Vec<u32>,
    pub owners: Vec<u32>,
    pub ranks: u32,
}

/// The floor and the cap of a load, and the passes.
#[derive(Clone, Copy, Debug)]
pub struct Rules {
    pub floor: u64,
    pub cap: u64,
    pub passes: u64,
}

// SAFETY, of each call below: the archive's functions demand nothing and read only the slices that are passed with their
// lengths, which outlive the call; what they write lies in the work slice, which is lent as `&mut`, or behind a `&mut`.
macro_rules! call {
    ($name:ident, $l:expr, $($more:expr),*) => {
        unsafe {
            $name($l.offsets.as_ptr(), $l.offsets.len(), $l.neighbors.as_ptr(), $l.neighbors.len(), $l.weights.as_ptr(),
                $l.weights.len(), $l.owners.as_ptr(), $l.owners.len(), $l.ranks, $($more),*)
        }
    };
}

impl Level {
    pub fn vertices(&self) -> usize {
        self.offsets.len().saturating_sub(1)
    }

    /// The room of a level in the work slice; the next level lies after it, and the stages' own room after both.
    fn unit(&self) -> usize {
        4 * self.vertices() + self.neighbors.len() + 1
    }

    /// How many work numbers are needed.
    pub fn need(&self) -> usize {
        let (n, k) = (self.vertices(), self.ranks as usize);
        2 * self.unit() + 3 * n + 6 * k + 24 * k * k
    }

    /// Where the weights of a level at `base` begin; its map and its owners follow, n numbers each.
    fn weights_at(&self, base: usize) -> usize {
        base + self.vertices() + 1 + self.neighbors.len()
    }

    pub fn owners_in<'a>(&self, work: &'a [u32]) -> &'a [u32] {
        let (n, weights) = (self.vertices(), self.weights_at(0));
        &work[weights + 2 * n..weights + 3 * n]
    }

    pub fn map_in<'a>(&self, work: &'a [u32]) -> &'a [u32] {
        let (n, weights) = (self.vertices(), self.weights_at(0));
        &work[weights + n..weights + 2 * n]
    }

    /// The next level's rows and weights, of so many groups.
    pub fn next_in<'a>(&self, work: &'a [u32], groups: usize) -> (Vec<&'a [u32]>, &'a [u32]) {
        let offsets = &work[self.unit()..];
        let neighbors = &offsets[self.vertices() + 1..];
        let weights = self.weights_at(self.unit());
        let row = |g: usize| &neighbors[offsets[g] as usize..offsets[g + 1] as usize];
        ((0..groups).map(row).collect(), &work[weights..weights + groups])
    }

    pub fn seeds_in<'a>(&self, work: &'a [u32]) -> &'a [u32] {
        let seeds = 2 * self.unit() + 2 * self.vertices();
        &work[seeds..seeds + self.ranks as usize]
    }

    /// The groups, their lists' entries, the pairs and the singletons; zeros where there are no fewer groups.
    pub fn coarsen(&self, work: &mut [u32]) -> (u32, [u64; 4]) {
        let mut counts = [77; 4];
        let number = call!(bridge_coarsen, self, work.as_mut_ptr(), work.len(), &mut counts);
        (number, counts)
    }

    pub fn seeds(&self, work: &mut [u32]) -> u32 {
        call!(bridge_seeds, self, work.as_mut_ptr(), work.len())
    }

    pub fn growth(&self, cap: u64, work: &mut [u32]) -> (u32, u64) {
        let mut restarts = 77;
        let number = call!(bridge_growth, self, cap, work.as_mut_ptr(), work.len(), &mut restarts);
        (number, restarts)
    }

    pub fn moves(&self, r: Rules, work: &mut [u32]) -> (u32, u64) {
        let mut moves = 77;
        let number = call!(bridge_moves, self, r.floor, r.cap, r.passes, work.as_mut_ptr(), work.len(), &mut moves);
        (number, moves)
    }

    pub fn swaps(&self, r: Rules, list_length: u32, work: &mut [u32]) -> (u32, u64) {
        let (mut swaps, (p, n)) = (77, (work.as_mut_ptr(), work.len()));
        let number = call!(bridge_swaps, self, r.floor, r.cap, r.passes, list_length, p, n, &mut swaps);
        (number, swaps)
    }
}
