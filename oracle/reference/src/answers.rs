//! What documents 01 and 02 expect of each public call. Where they add a refusal (3, 4, 5, 13, 17; cap and floor beyond their
//! range), their rule stands here and comes first, in their order; all else is what the Rust answers: the unchanged Rust where no
//! request of 02 can change the answer, else the oracle in force.
use crate::sites::{Question, Site};
use crate::unchanged::{self, stages};
use crate::{Csr32Matrix, DistributedTopologyError, PartitionAssignment, RankId, in_force};

pub const MAX_VERTICES: usize = 16_384;
pub const MAX_NEIGHBORS: usize = 131_072;
pub const MAX_RANKS: u32 = 256;
pub const MAX_LEVELS: u64 = 32;
pub const MAX_WORKLOAD: u32 = 10_000;
pub const MAX_LIST_LENGTH: u64 = 12;
pub const MAX_PASS_FACTOR: u64 = 8;
/// The defaults of both.
pub const SWAPPING: [u64; 2] = [8, 4];

/// The number of the Rust's error. InvalidRankCount is 2 by n and k, else the 7 of too few groups.
pub fn refusal(e: &DistributedTopologyError, n: usize, ranks: u32) -> u32 {
    use DistributedTopologyError::*;
    match e {
        InvalidPartition("invalid G8-A6 multilevel options") => 1,
        InvalidRankCount if n == 0 || ranks == 0 || ranks as usize > n => 2,
        InvalidRankCount => 7,
        InvalidPartition("coarse aggregate exceeds balance cap") => 6,
        InvalidPartition("weighted coarse partition cannot satisfy balance cap") => 8,
        InvalidPartition("partition assignment contains an empty rank") => 9,
        GlobalDofOutOfRange { .. } => 11,
        RankOutOfRange { .. } => 12,
        other => panic!("an error of the Rust that 01 has no number for: {other:?}"),
    }
}

// ---- rule 1

/// 01: "called with t > 500 or k = 0, both return 2^64 − 1"; the Rust divides by 0, or answers.
pub fn load_cap(total: u64, ranks: u32, t: u32) -> u64 {
    if t > 500 || ranks == 0 {
        return u64::MAX;
    }
    stages::load_cap(total as usize, ranks, t) as u64
}

pub fn minimum_load(total: u64, ranks: u32, t: u32) -> u64 {
    if t > 500 || ranks == 0 {
        return u64::MAX;
    }
    stages::minimum_load(total as usize, ranks, t) as u64
}

// ---- rule 2

/// 0, or 2, 3, 12, 9 in this order. The Rust's 2 also comes for 2^32 − 1 ranks; its limits are wider, so 3 is 01's.
pub fn from_owners(ranks: u32, owners: &[u32]) -> u32 {
    let answer = PartitionAssignment::from_owners(ranks, owners.to_vec());
    if answer == Err(DistributedTopologyError::InvalidRankCount) {
        return 2;
    }
    if owners.len() > MAX_VERTICES || ranks > MAX_RANKS {
        return 3;
    }
    answer.map_or_else(|e| refusal(&e, owners.len(), ranks), |_| 0)
}

/// 01: "take any owner list and test only 11 and 12".
pub fn owner_of(owners: &[u32], v: u64) -> Result<u32, u32> {
    PartitionAssignment::untested(0, owners.to_vec()).owner_of(v).map_err(|e| refusal(&e, owners.len(), 0))
}

pub fn owned_count(ranks: u32, owners: &[u32], rank: u32) -> Result<u64, u32> {
    PartitionAssignment::untested(ranks, owners.to_vec())
        .owned_count(rank)
        .map(|c| c as u64)
        .map_err(|e| refusal(&e, owners.len(), ranks))
}

// ---- the lent lists: 01's own, the Rust has no counterpart

pub fn vertex_count(offsets: &[u32]) -> usize {
    offsets.len().saturating_sub(1)
}

/// The part of `neighbors` that is v's: 11 for an index ≥ n, else 4 for two offsets that fall or pass the slice's end.
pub fn neighbors_of<'a>(offsets: &[u32], neighbors: &'a [u32], v: u64) -> Result<&'a [u32], u32> {
    if v >= vertex_count(offsets) as u64 {
        return Err(11);
    }
    let (a, e) = (offsets[v as usize] as usize, offsets[v as usize + 1] as usize);
    neighbors.get(a..e).ok_or(4)
}

/// Cause 4: 4 or 0. A reading of 01's row by sets, and no copy of the definition's.
pub fn lists_cause(offsets: &[u32], neighbors: &[u32]) -> u32 {
    let Some(last) = offsets.last() else { return 4 };
    if offsets[0] != 0 || *last as usize != neighbors.len() || !offsets.is_sorted() {
        return 4;
    }
    let n = offsets.len() - 1;
    let mut directed = std::collections::HashSet::new();
    for v in 0..n {
        let mut above = None;
        for &u in &neighbors[offsets[v] as usize..offsets[v + 1] as usize] {
            if above >= Some(u) || u as usize >= n || u as usize == v {
                return 4;
            }
            above = Some(u);
            directed.insert((v as u32, u));
        }
    }
    if directed.iter().all(|&(v, u)| directed.contains(&(u, v))) { 0 } else { 4 }
}

/// Request P1: 13 for "a workload of 0 or above 10,000, or a workload slice not n long", else 0.
pub fn workloads_cause(workloads: &[u32], n: u64) -> u32 {
    let good = workloads.len() as u64 == n && workloads.iter().all(|w| (1..=MAX_WORKLOAD).contains(w));
    if good { 0 } else { 13 }
}

// ---- rule 8

/// Options as 01 and request P9 have them: u64 all.
#[derive(Clone, Copy, Debug, PartialEq, Eq)]
pub struct Options {
    pub max_levels: u64,
    pub coarse_vertices_per_rank: u64,
    pub imbalance_per_mille: u64,
    pub refinement_passes: u64,
    pub swap_list_length: u64,
    pub swap_pass_factor: u64,
}

impl Options {
    /// From the four that a link file carries, in its order; the other two are the defaults.
    pub fn of([max_levels, coarse_vertices_per_rank, imbalance_per_mille, refinement_passes]: [u64; 4]) -> Self {
        let [swap_list_length, swap_pass_factor] = SWAPPING;
        Options {
            max_levels,
            coarse_vertices_per_rank,
            imbalance_per_mille,
            refinement_passes,
            swap_list_length,
            swap_pass_factor,
        }
    }

    /// The same with this list length and pass factor.
    pub fn with(self, [swap_list_length, swap_pass_factor]: [u64; 2]) -> Self {
        Options { swap_list_length, swap_pass_factor, ..self }
    }

    /// The four that a link file carries.
    pub fn filed(self) -> [u64; 4] {
        [self.max_levels, self.coarse_vertices_per_rank, self.imbalance_per_mille, self.refinement_passes]
    }

    /// The list length and the pass factor.
    pub fn swapping(self) -> [u64; 2] {
        [self.swap_list_length, self.swap_pass_factor]
    }

    /// All of them, in the order of the fields.
    pub fn numbers(self) -> [u64; 6] {
        let ([levels, per_rank, imbalance, passes], [length, factor]) = (self.filed(), self.swapping());
        [levels, per_rank, imbalance, passes, length, factor]
    }

    /// 0, or the Rust's 1, or request P9's 17, "after 1 and before 2".
    pub fn validate(self) -> u32 {
        let rust = stages::validate(unchanged::options(self.with(SWAPPING).numbers()));
        if rust != 0 { rust } else { swapping_cause(self.swapping()) }
    }
}

/// Request P9: 17 "for either outside its range", else 0.
fn swapping_cause([length, factor]: [u64; 2]) -> u32 {
    let good = (1..=MAX_LIST_LENGTH).contains(&length) && (1..=MAX_PASS_FACTOR).contains(&factor);
    if good { 0 } else { 17 }
}

/// An accepted division: an owner for each vertex, and the stats in the order of `AbtmMultilevelStats`.
pub type Division = (Vec<u32>, [u64; 8]);

/// How many owners and work numbers a division needs.
pub fn lent_needs(n: usize, m: usize, ranks: u32, max_levels: u64) -> (usize, usize) {
    let (levels, k) = (max_levels as usize, ranks as usize);
    (n, (levels + 6) * (4 * n + 2 * m + 2) + 24 * k * k)
}

/// A division with enough lent memory.
pub fn partition(question: &Question) -> Result<Division, u32> {
    partition_lent(question, usize::MAX, usize::MAX)
}

/// A division with so many owners and work numbers lent. 17 comes after the Rust's 1, and 3, 4, 13 and 5 after its 2: these are
/// reckoned here too where the Rust cannot be given the lists.
pub fn partition_lent(question: &Question, owners_lent: usize, work_lent: usize) -> Result<Division, u32> {
    let Question { site, workloads, ranks, options } = question;
    let (n, m) = (vertex_count(&site.offsets), site.neighbors.len());
    let invalid = options.validate();
    if invalid != 0 {
        return Err(invalid);
    }
    if n == 0 || *ranks == 0 || *ranks as usize > n {
        return Err(2);
    }
    if n > MAX_VERTICES || m > MAX_NEIGHBORS || *ranks > MAX_RANKS || options.max_levels > MAX_LEVELS {
        return Err(3);
    }
    if lists_cause(&site.offsets, &site.neighbors) != 0 {
        return Err(4);
    }
    if workloads_cause(workloads, n as u64) != 0 {
        return Err(13);
    }
    let (owners_need, work_need) = lent_needs(n, m, *ranks, options.max_levels);
    if owners_lent < owners_need || work_lent < work_need {
        return Err(5);
    }
    rust_partition(question)
}

/// Whether a request of document 02 can change the moves of a level. Request P4 cannot among two ranks: then a vertex has no more
/// than one rank to go to.
fn moves_changed(ranks: u32) -> bool {
    ranks > 2
}

/// The same of the swaps. Request P1 cannot where every weight is 1: then a swap leaves both loads as they were. Request P9 cannot
/// where its numbers are the defaults.
fn swaps_changed<T: PartialEq + From<u8>>(weights: &[T], swapping: [u64; 2]) -> bool {
    swapping != SWAPPING || weights.iter().any(|w| *w != T::from(1))
}

/// The same of a division.
pub fn changed(question: &Question) -> bool {
    moves_changed(question.ranks) || swaps_changed(&question.workloads, question.options.swapping())
}

/// What the Rust answers, its own 1 and 2 included, on lists that make a matrix.
fn rust_partition(question: &Question) -> Result<Division, u32> {
    let oracle = if changed(question) { in_force::asked } else { unchanged::asked };
    oracle_partition(oracle, question)
}

/// A driver of multilevel.rs: unchanged, in force, or with a slip.
pub type Asked = fn(&Csr32Matrix, &[usize], RankId, [u64; 6]) -> Result<Division, DistributedTopologyError>;

pub fn oracle_partition(oracle: Asked, question: &Question) -> Result<Division, u32> {
    assert!(std::env::var_os("HYBIT_A6_F12_MERGE").is_none(), "HYBIT_A6_F12_MERGE must be unset");
    let Question { site, workloads, ranks, options } = question;
    let workloads: Vec<usize> = workloads.iter().map(|&w| w as usize).collect();
    oracle(&matrix(site), &workloads, *ranks, options.numbers()).map_err(|e| refusal(&e, site.vertices(), *ranks))
}

/// The Rust's matrix of a site whose lists make one: every value is 1.
pub fn matrix(site: &Site) -> Csr32Matrix {
    let (n, offsets, neighbors) = (site.vertices(), site.offsets.clone(), site.neighbors.clone());
    let values = vec![1.0; neighbors.len()];
    Csr32Matrix::new(n, n, offsets, neighbors, values).expect("lists that make a matrix")
}

/// The owners that the moves or the swaps of one level leave and the number of steps, or a refusal.
type Refined = Result<(Vec<u32>, usize), u32>;
/// The moves, of rows, weights, ranks, owners, imbalance and passes.
pub type Moves = fn(&[Vec<usize>], &[usize], u32, &[u32], u32, usize) -> Refined;
/// The swaps, of the same and a list length.
pub type Swaps = fn(&[Vec<usize>], &[usize], u32, &[u32], u32, usize, usize) -> Refined;

/// The moves that are expected among so many ranks.
pub fn moves(ranks: u32) -> Moves {
    if moves_changed(ranks) { in_force::stages::refine_by_cut } else { stages::refine_by_cut }
}

/// The swaps that are expected of vertices with these weights, with lists of this length.
pub fn swaps(weights: &[usize], list_length: u64) -> Swaps {
    let changed = swaps_changed(weights, [list_length, SWAPPING[1]]);
    if changed { in_force::stages::refine_fine_pair_swaps } else { stages::refine_fine_pair_swaps }
}
