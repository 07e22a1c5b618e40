// The private stages of multilevel.rs on rows (row v: v's neighbors, rising) and plain lists. A refusal is 01's number. Stands beside the unchanged
// Rust and the oracle in force. Their premises are the Rust's own: symmetric rows, an owner below `ranks` for each vertex, ranks > 0.
use super::{AbtmMultilevelOptions, Csr32Matrix, DistributedTopologyError, PartitionAssignment, RankId};
use crate::answers::refusal;

pub type Rows = Vec<Vec<usize>>;

#[derive(Clone, Debug, PartialEq, Eq)]
pub struct Coarsened {
    pub rows: Rows,
    pub weights: Vec<usize>,
    /// Each vertex's group.
    pub fine_to_coarse: Vec<usize>,
    pub matched_pairs: usize,
    pub singleton_aggregates: usize,
}

/// 0, or 1.
pub fn validate(options: AbtmMultilevelOptions) -> u32 {
    options.validate().map_or_else(|e| refusal(&e, 0, 0), |()| 0)
}

pub fn load_cap(total_weight: usize, ranks: RankId, imbalance_per_mille: u32) -> usize {
    super::load_cap(total_weight, ranks, imbalance_per_mille)
}

pub fn minimum_load(total_weight: usize, ranks: RankId, imbalance_per_mille: u32) -> usize {
    super::minimum_load(total_weight, ranks, imbalance_per_mille)
}

pub fn coarsen_once_cached(rows: &[Vec<usize>], weights: &[usize]) -> Coarsened {
    let matrix = super::matrix_from_adjacency(rows).expect("rows make a matrix");
    let ((_, weights, fine_to_coarse, matched_pairs, singleton_aggregates), rows) =
        super::coarsen_once_cached(&matrix, weights, rows).expect("coarsening never refuses");
    Coarsened { rows, weights, fine_to_coarse, matched_pairs, singleton_aggregates }
}

pub fn farthest_seeds(rows: &[Vec<usize>], ranks: RankId) -> Result<Vec<usize>, u32> {
    super::farthest_seeds(rows, ranks).map_err(number)
}

/// Growth: the owners and the restarts, or 6, 7 or 8.
pub fn weighted_multisource_partition(
    rows: &[Vec<usize>],
    weights: &[usize],
    ranks: RankId,
    imbalance_per_mille: u32,
) -> Result<(Vec<RankId>, usize), u32> {
    let matrix = super::matrix_from_adjacency(rows).expect("rows make a matrix");
    super::weighted_multisource_partition(&matrix, weights, ranks, imbalance_per_mille)
        .map(|(assignment, restarts)| (assignment.owners().to_vec(), restarts))
        .map_err(number)
}

/// Moves or swaps, which take the rows as a matrix and the owners untested: the owners that they leave, and their number.
fn refined(
    rows: &[Vec<usize>],
    ranks: RankId,
    owners: &[RankId],
    refine: impl FnOnce(&Csr32Matrix, &mut PartitionAssignment) -> Result<usize, DistributedTopologyError>,
) -> Result<(Vec<RankId>, usize), u32> {
    let matrix = super::matrix_from_adjacency(rows).expect("rows make a matrix");
    let mut assignment = PartitionAssignment::untested(ranks, owners.to_vec());
    let steps = refine(&matrix, &mut assignment).map_err(number)?;
    Ok((assignment.owners().to_vec(), steps))
}

/// Moves: the owners and the number of moves, or 9.
pub fn refine_by_cut(
    rows: &[Vec<usize>],
    weights: &[usize],
    ranks: RankId,
    owners: &[RankId],
    imbalance_per_mille: u32,
    passes: usize,
) -> Result<(Vec<RankId>, usize), u32> {
    refined(rows, ranks, owners, |m, a| super::refine_by_cut(m, weights, a, imbalance_per_mille, passes))
}

/// Swaps: the owners and the number of swaps.
pub fn refine_fine_pair_swaps(
    rows: &[Vec<usize>],
    weights: &[usize],
    ranks: RankId,
    owners: &[RankId],
    imbalance_per_mille: u32,
    passes: usize,
    list_length: usize,
) -> Result<(Vec<RankId>, usize), u32> {
    refined(rows, ranks, owners, |m, a| {
        super::refine_fine_pair_swaps(m, weights, list_length, a, imbalance_per_mille, passes)
    })
}

/// Of a coarse level a rank count too great is the 7 of too few groups.
fn number(e: DistributedTopologyError) -> u32 {
    refusal(&e, usize::MAX, 1)
}
