// The options from plain numbers, in the order of `answers::Options`. Stands beside the oracle in force and each slip.

/// Document 01's imbalance is u64: above 2^32 it is as much above 500 as 2^32 − 1 is.
pub fn options(
    [max_levels, coarse_vertices_per_rank, t, refinement_passes, length, factor]: [u64; 6],
) -> AbtmMultilevelOptions {
    AbtmMultilevelOptions {
        max_levels: max_levels as usize,
        coarse_vertices_per_rank: coarse_vertices_per_rank as usize,
        imbalance_per_mille: u32::try_from(t).unwrap_or(u32::MAX),
        refinement_passes: refinement_passes as usize,
        swap_list_length: length as usize,
        swap_pass_factor: factor as usize,
    }
}
