// A division of multilevel.rs on plain numbers, the options as options.rs or four_options.rs has them. Stands beside each copy of it.

/// The owners, and the stats in the order of `AbtmMultilevelStats`.
pub fn asked(
    matrix: &Csr32Matrix,
    workloads: &[usize],
    ranks: RankId,
    numbers: [u64; 6],
) -> Result<(Vec<RankId>, [u64; 8]), DistributedTopologyError> {
    let (assignment, s) = abtm_multilevel_partition(matrix, workloads, ranks, options(numbers))?;
    let stats = [
        s.levels_built,
        s.coarsest_vertices,
        s.matched_pairs,
        s.singleton_aggregates,
        s.coarse_restarts,
        s.refinement_moves,
        s.final_cut_nnz,
        s.final_communication_volume,
    ];
    Ok((assignment.owners().to_vec(), stats.map(|x| x as u64)))
}
