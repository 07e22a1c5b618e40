// The same where request P9 is not made: its two numbers must be the defaults. Stands beside the unchanged Rust and the copies without P9.

/// As in options.rs.
pub fn options(
    [max_levels, coarse_vertices_per_rank, t, refinement_passes, length, factor]: [u64; 6],
) -> AbtmMultilevelOptions {
    assert_eq!([length, factor], crate::answers::SWAPPING, "without request P9 these are fixed");
    AbtmMultilevelOptions {
        max_levels: max_levels as usize,
        coarse_vertices_per_rank: coarse_vertices_per_rank as usize,
        imbalance_per_mille: u32::try_from(t).unwrap_or(u32::MAX),
        refinement_passes: refinement_passes as usize,
    }
}
