// What document 02 asks of the Rust: a request, what it asks, and the replacements in multilevel.rs that make it so. The oracle in force is the Rust
// with all of them made, in this order. reference/build.rs writes it, and replay/build.rs makes the slips from it.
use std::path::PathBuf;

type Replacements = &'static [(&'static str, &'static str)];

const CHANGES: &[(&str, &str, Replacements)] = &[
    (
        "P4",
        "of equal gains the rank with the smaller load now is the target, and only then the lower rank",
        &[
            (
                "let mut best_target: Option<(usize, usize)> = None;",
                "let mut best_target: Option<(usize, usize, usize)> = None;",
            ),
            (
                "let candidate = (gain, usize::MAX - target);",
                "let candidate = (gain, usize::MAX - loads[target], usize::MAX - target);",
            ),
            ("if let Some((_, reverse_target)) = best_target {", "if let Some((_, _, reverse_target)) = best_target {"),
        ],
    ),
    (
        "P1",
        "the finest weights are the workloads, also for the swaps, and a swap must leave both loads from floor to cap too",
        &[
            (
                "pub fn abtm_multilevel_partition(\n    matrix: &Csr32Matrix,",
                "pub fn abtm_multilevel_partition(\n    matrix: &Csr32Matrix,\n    workloads: &[usize],",
            ),
            (
                "let mut current_weights = vec![1usize; matrix.nrows()];",
                "let mut current_weights = workloads.to_vec();",
            ),
            (
                "refine_fine_pair_swaps(\n            matrix,",
                "refine_fine_pair_swaps(\n            matrix,\n            workloads,",
            ),
            (
                "fn refine_fine_pair_swaps(\n    matrix: &Csr32Matrix,",
                "fn refine_fine_pair_swaps(\n    matrix: &Csr32Matrix,\n    weights: &[usize],",
            ),
            ("load_cap(n, assignment", "load_cap(weights.iter().sum(), assignment"),
            ("minimum_load(n, assignment", "minimum_load(weights.iter().sum(), assignment"),
            ("for &owner in &owners {", "for (&owner, &weight) in owners.iter().zip(weights) {"),
            ("loads[owner as usize] += 1;", "loads[owner as usize] += weight;"),
            (
                "owners[node_a] = b as RankId;",
                "let left_a = loads[a] + weights[node_b] - weights[node_a];
                    let left_b = loads[b] + weights[node_a] - weights[node_b];
                    if left_a < floor || left_a > cap || left_b < floor || left_b > cap {
                        continue;
                    }
                    loads[a] = left_a;
                    loads[b] = left_b;
                    owners[node_a] = b as RankId;",
            ),
        ],
    ),
    (
        "P9",
        "the length of a candidate list and the factor of the swaps' passes are options, by default 8 and 4",
        &[
            (
                "pub refinement_passes: usize,",
                "pub refinement_passes: usize,\n    pub swap_list_length: usize,\n    pub swap_pass_factor: usize,",
            ),
            (
                "refinement_passes: 2,",
                "refinement_passes: 2,\n            swap_list_length: 8,\n            swap_pass_factor: 4,",
            ),
            (
                "fn refine_fine_pair_swaps(\n    matrix: &Csr32Matrix,\n    weights: &[usize],",
                "fn refine_fine_pair_swaps(\n    matrix: &Csr32Matrix,\n    weights: &[usize],\n    list_length: usize,",
            ),
            ("items.truncate(8);", "items.truncate(list_length);"),
            (
                "refine_fine_pair_swaps(\n            matrix,\n            workloads,",
                "refine_fine_pair_swaps(\n            matrix,\n            workloads,\n            options.swap_list_length,",
            ),
            (
                "options.refinement_passes.saturating_mul(4)",
                "options.refinement_passes.saturating_mul(options.swap_pass_factor)",
            ),
        ],
    ),
];

/// Where the Rust stands: HIPSTERN_RUST_SRC (from the repository's root, if it is relative), by default ../shared/docs/src.
fn sources() -> PathBuf {
    println!("cargo:rerun-if-env-changed=HIPSTERN_RUST_SRC");
    let root = PathBuf::from(std::env::var_os("CARGO_MANIFEST_DIR").unwrap()).join("../..");
    let src = root.join(std::env::var_os("HIPSTERN_RUST_SRC").unwrap_or("../shared/docs/src".into()));
    src.canonicalize().unwrap_or_else(|e| panic!("no Rust sources at {}: {e}", src.display()))
}

/// A text with its replacements made, each of which must match once.
fn replaced(text: String, name: &str, replacements: Replacements) -> String {
    replacements.iter().fold(text, |text, (from, to)| {
        assert_eq!(text.matches(from).count(), 1, "{name}: a replacement must match once: {from}");
        text.replace(from, to)
    })
}

/// The text of multilevel.rs with what these requests ask.
fn with(requests: &[&str]) -> String {
    let source = sources().join("crates/hybit-distributed/src/multilevel.rs");
    println!("cargo:rerun-if-changed={}", source.display());
    let unchanged = std::fs::read_to_string(&source).unwrap_or_else(|e| panic!("{}: {e}", source.display()));
    let asked = CHANGES.iter().filter(|(request, _, _)| requests.contains(request));
    asked.fold(unchanged, |text, (request, _, replacements)| replaced(text, request, replacements))
}

/// The same with all of them: the oracle in force.
fn in_force() -> String {
    with(&CHANGES.iter().map(|change| change.0).collect::<Vec<_>>())
}
