//! Request P14, when growth gets stuck, read from its sentences alone: numbers, of which the Rust reckons none. It speaks of a
//! division that 1 to 5, 13 and 17 do not refuse, whose workloads are all 1, and of which no coarsening step is kept.

/// Rule 1's cap of a load: floor(total × (1000 + t) / (1000 × k)).
pub fn cap(total: u64, ranks: u64, t: u64) -> u64 {
    let whole = u128::from(total) * u128::from(1000 + t) / (1000 * u128::from(ranks));
    u64::try_from(whole).expect("a cap below 2^64")
}

/// Whether the caps of all ranks together are short of the total: k × cap < total.
pub fn short(total: u64, ranks: u64, t: u64) -> bool {
    ranks * cap(total, ranks, t) < total
}

/// The least imbalance per mille with which growth does not get stuck: ceil(1000 × (k × ceil(n / k) − n) / n). If it is above 500,
/// there must be fewer ranks.
pub fn least(n: u64, ranks: u64) -> u64 {
    let most = ranks * n.div_ceil(ranks);
    (1000 * (most - n)).div_ceil(n)
}

/// Whether no coarsening step is kept: n ≤ max(k, k × coarse_vertices_per_rank), saturating, or the site has no link.
pub fn no_step(n: u64, links: u64, ranks: u64, per_rank: u64) -> bool {
    n <= ranks.saturating_mul(per_rank).max(ranks) || links == 0
}

/// The answers that are claimed of such a division: 8 exactly where the caps are short of n, else 0, or 9 where n < 2 × k.
pub fn claimed(n: u64, ranks: u64, t: u64) -> &'static [u32] {
    if short(n, ranks, t) {
        &[8]
    } else if n < 2 * ranks {
        &[0, 9]
    } else {
        &[0]
    }
}
