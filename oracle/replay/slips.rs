// The slips: a name, what goes wrong, and the replacements in the oracle in force that make it so, each of which must match once. build.rs makes a
// copy of it with each of them, and the list of requests has sites on which that copy answers otherwise.
const SLIPS: &[(&str, &str, Replacements)] = &[
    // document 01, 'Slips the Rust invites'
    (
        "stale_gains",
        "a swap is applied from the gains at the pass's start",
        &[("if gain_a + gain_b <= 0 {", "if false {")],
    ),
    (
        "discarded_singletons",
        "the discarded step's singletons are counted",
        &[(
            "if coarse_matrix.nrows() >= previous_n {\n            break;",
            "if coarse_matrix.nrows() >= previous_n {\n            stats.singleton_aggregates += singletons;\n            break;",
        )],
    ),
    (
        "unmatched_shared",
        "only unmatched shared neighbors count",
        &[(
            ".filter(|&&shared| neighbor_stamps[shared] == node)",
            ".filter(|&&shared| neighbor_stamps[shared] == node && fine_to_coarse[shared] == usize::MAX)",
        )],
    ),
    (
        "coarse_cut",
        "the coarsest level's cut is reported as the finest's",
        &[
            (
                "let uncoarsening_started = Instant::now();",
                "let coarse_cut = partition_telemetry_assignment(&current_matrix, &assignment)?.cut_nnz;\n    let uncoarsening_started = Instant::now();",
            ),
            ("stats.final_cut_nnz = final_metrics.cut_nnz;", "stats.final_cut_nnz = coarse_cut;"),
        ],
    ),
    // what the starred sites by hand do not catch
    (
        "order_by_number",
        "vertices are paired by number, not by degree",
        &[(
            "order.sort_by_key(|&node| (Reverse(adjacency[node].len()), node));",
            "order.sort_by_key(|&node| (Reverse(0), node));",
        )],
    ),
    (
        "restart_low_degree",
        "a restart takes the group of lowest degree",
        &[(
            "let candidate = (adjacency[node].len(), usize::MAX - node);",
            "let candidate = (usize::MAX - adjacency[node].len(), usize::MAX - node);",
        )],
    ),
    (
        "claim_appends_nothing",
        "a claim appends none of its neighbors",
        &[(
            "changed = true;\n\n                for &neighbor in &adjacency[node] {",
            "changed = true;\n\n                for &neighbor in &adjacency[node][..0] {",
        )],
    ),
    (
        "no_floor",
        "a move may leave less than the floor",
        &[("if loads[source] < weight || loads[source] - weight < floor {", "if loads[source] < weight {")],
    ),
    (
        "used_twice",
        "a vertex is swapped twice in a pass",
        &[
            ("if used[node_a] || used[node_b] {", "if false {"),
            ("if owners[node_a] != a as RankId || owners[node_b] != b as RankId {", "if false {"),
        ],
    ),
    (
        "linked_less_one",
        "net is 1 less if linked, not 2",
        &[("gain_a + gain_b - (shared as isize * 2)", "gain_a + gain_b - shared as isize")],
    ),
    (
        "passes_once",
        "swaps have refinement_passes passes, not four times as many",
        &[("options.refinement_passes.saturating_mul(options.swap_pass_factor)", "options.refinement_passes")],
    ),
    // further edits, a few for each stage
    (
        "partner_high_degree",
        "of equal partners the one of highest degree",
        &[("usize::MAX - adjacency[neighbor].len(),", "adjacency[neighbor].len(),")],
    ),
    (
        "reachable_first",
        "seeds that can be reached come before those that cannot",
        &[(
            "unreachable,\n                if unreachable { 0 } else { distance[node] },",
            "!unreachable,\n                if unreachable { 0 } else { distance[node] },",
        )],
    ),
    (
        "nearest_seed",
        "the next seed is the nearest",
        &[(
            "if unreachable { 0 } else { distance[node] },",
            "if unreachable { 0 } else { usize::MAX - distance[node] },",
        )],
    ),
    (
        "no_cap",
        "a move may pass the cap",
        &[("\n                    || loads[target].saturating_add(weight) > cap", "")],
    ),
    (
        "highest_rank",
        "of equal gains and loads the highest rank is the target",
        &[
            (
                "let candidate = (gain, usize::MAX - loads[target], usize::MAX - target);",
                "let candidate = (gain, usize::MAX - loads[target], target);",
            ),
            ("let target = usize::MAX - reverse_target;", "let target = reverse_target;"),
        ],
    ),
    (
        "first_target",
        "the first rank with a gain is the target, not the one of greatest gain",
        &[(
            "let candidate = (gain, usize::MAX - loads[target], usize::MAX - target);",
            "let candidate = (1, 0, usize::MAX - target);",
        )],
    ),
    (
        "moves_feigned",
        "no moves",
        &[(
            "let mut moves = 0usize;\n\n    for _ in 0..passes {",
            "let mut moves = 0usize;\n\n    for _ in 0..passes.min(0) {",
        )],
    ),
    (
        "swaps_feigned",
        "no swaps",
        &[(
            "let mut total_swaps = 0usize;\n\n    for _ in 0..passes {",
            "let mut total_swaps = 0usize;\n\n    for _ in 0..passes.min(0) {",
        )],
    ),
    (
        "swap_unbalanced",
        "a swap between ranks of which one is below the floor or above the cap",
        &[
            ("if loads[a] < floor || loads[a] > cap || loads[b] < floor || loads[b] > cap {", "if false {"),
            ("if left_a < floor || left_a > cap || left_b < floor || left_b > cap {", "if false {"),
        ],
    ),
    (
        "seven_candidates",
        "seven candidates for a pair of ranks, not eight",
        &[("items.truncate(list_length);", "items.truncate(list_length - 1);")],
    ),
    // request P4
    (
        "loads_ignored",
        "of equal gains the lowest rank is the target, whatever the loads: the key before P4",
        &[(
            "let candidate = (gain, usize::MAX - loads[target], usize::MAX - target);",
            "let candidate = (gain, 0, usize::MAX - target);",
        )],
    ),
    (
        "heavier_first",
        "of equal gains the rank with the greater load is the target",
        &[(
            "let candidate = (gain, usize::MAX - loads[target], usize::MAX - target);",
            "let candidate = (gain, loads[target], usize::MAX - target);",
        )],
    ),
    (
        "load_before_gain",
        "the rank with the smallest load is the target, and only then the one of greatest gain",
        &[(
            "let candidate = (gain, usize::MAX - loads[target], usize::MAX - target);",
            "let candidate = (usize::MAX - loads[target], gain, usize::MAX - target);",
        )],
    ),
    (
        "stale_loads",
        "of equal gains the rank whose load was smaller at the pass's start is the target",
        &[
            (
                "let mut changed = false;\n\n        for node in 0..matrix.nrows() {",
                "let mut changed = false;\n        let stale = loads.clone();\n        for node in 0..matrix.nrows() {",
            ),
            (
                "let candidate = (gain, usize::MAX - loads[target], usize::MAX - target);",
                "let candidate = (gain, usize::MAX - stale[target], usize::MAX - target);",
            ),
        ],
    ),
    // request P9, with its defaults
    (
        "nine_candidates",
        "nine candidates for a pair of ranks, not eight",
        &[("items.truncate(list_length);", "items.truncate(list_length + 1);")],
    ),
    (
        "numbers_exchanged",
        "the list length is taken for the pass factor and the factor for the length: four candidates, eight times the passes",
        &[
            ("workloads,\n            options.swap_list_length,", "workloads,\n            options.swap_pass_factor,"),
            ("saturating_mul(options.swap_pass_factor)", "saturating_mul(options.swap_list_length)"),
        ],
    ),
    (
        "factor_for_moves",
        "the moves have the factor times refinement_passes passes too",
        &[
            (
                "\n        options.refinement_passes,",
                "\n        options.refinement_passes.saturating_mul(options.swap_pass_factor),",
            ),
            (
                "\n            options.refinement_passes,",
                "\n            options.refinement_passes.saturating_mul(options.swap_pass_factor),",
            ),
        ],
    ),
    (
        "cut_before_sorted",
        "a list has the candidates of the lowest numbers, not those of the greatest gains",
        &[
            ("items.sort_unstable_by(", "items.truncate(list_length);\n                items.sort_unstable_by("),
            ("\n                items.truncate(list_length);\n            }", "\n            }"),
        ],
    ),
    (
        "equal_gains_high",
        "of equal gains the candidate of the higher number is listed first",
        &[(
            "items.sort_unstable_by(|a, b| b.0.cmp(&a.0).then_with(|| a.1.cmp(&b.1)));",
            "items.sort_unstable_by(|a, b| b.0.cmp(&a.0).then_with(|| b.1.cmp(&a.1)));",
        )],
    ),
];

// The slips of request P1: their sites have workloads.
const WORKLOAD_SLIPS: &[(&str, &str, Replacements)] = &[
    (
        "swap_before_only",
        "the loads are held to floor and cap before a swap only",
        &[("if left_a < floor || left_a > cap || left_b < floor || left_b > cap {", "if false {")],
    ),
    (
        "swap_after_only",
        "the loads are held to floor and cap after a swap only",
        &[("if loads[a] < floor || loads[a] > cap || loads[b] < floor || loads[b] > cap {", "if false {")],
    ),
    (
        "cap_from_n",
        "cap and floor go by the number of vertices, not by the sum of workloads",
        &[
            (
                "const UNASSIGNED: RankId = RankId::MAX;",
                "const UNASSIGNED: RankId = RankId::MAX;\nuse std::sync::atomic::{AtomicUsize, Ordering::Relaxed};\nstatic VERTICES: AtomicUsize = AtomicUsize::new(0);",
            ),
            ("options.validate()?;", "options.validate()?;\n    VERTICES.store(matrix.nrows(), Relaxed);"),
            ("total_weight.saturating_mul(1000usize + ", "VERTICES.load(Relaxed).saturating_mul(1000usize + "),
            (
                "total_weight.saturating_mul(1000usize.saturating_sub(",
                "VERTICES.load(Relaxed).saturating_mul(1000usize.saturating_sub(",
            ),
        ],
    ),
    (
        "swap_cap_from_n",
        "cap and floor of the swaps go by the number of vertices, as before P1",
        &[
            ("load_cap(weights.iter().sum(), assignment", "load_cap(n, assignment"),
            ("minimum_load(weights.iter().sum(), assignment", "minimum_load(n, assignment"),
        ],
    ),
    (
        "swap_loads_stale",
        "the loads are not updated after a swap",
        &[("loads[a] = left_a;", ""), ("loads[b] = left_b;", "")],
    ),
    (
        "workloads_ignored",
        "growth and moves take each workload as 1",
        &[("let mut current_weights = workloads.to_vec();", "let mut current_weights = vec![1usize; matrix.nrows()];")],
    ),
];
