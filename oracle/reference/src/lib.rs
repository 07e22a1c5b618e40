//! The Rust that Hipstern follows: the five files are included from where HIPSTERN_RUST_SRC says (build.rs), and nothing of them
//! is in this repository but what changes.rs quotes to replace it. `unchanged` is multilevel.rs as it stands, `in_force` the
//! same with what document 02 asks: the oracle in force. `stand_ins` has what they take from other files, `answers` what
//! documents 01 and 02 expect of a call (their own rule where they add a refusal, else the Rust's answer), `stages` in both
//! the Rust's private stages, and `trace` a division by them.

// All the crates that the sources name are this one.
extern crate self as hybit_core;
extern crate self as hybit_matrix;
extern crate self as rayon;

pub mod answers;
pub mod crane;
pub mod forced;
pub mod link_file;
pub mod listing;
pub mod random;
pub mod season;
pub mod sites;
mod stand_ins;
pub mod stuck;
pub mod telemetry;
pub mod trace;

pub use csr32::Csr32Matrix;
pub use dual_topology::AbtmDualTopology;
pub use partition::{PartitionAssignment, partition_telemetry_assignment};
pub use stand_ins::*;
pub use topology::{AbtmTopology, AbtmTopologyRow};

#[allow(dead_code)]
mod csr32 {
    include!(concat!(env!("RUST_SRC"), "/crates/hybit-matrix/src/csr32.rs"));
}

#[allow(dead_code)]
mod topology {
    include!(concat!(env!("RUST_SRC"), "/crates/hybit-matrix/src/topology.rs"));
}

#[allow(dead_code)]
mod dual_topology {
    include!(concat!(env!("RUST_SRC"), "/crates/hybit-matrix/src/dual_topology.rs"));
}

#[allow(dead_code)]
mod partition {
    include!(concat!(env!("RUST_SRC"), "/crates/hybit-distributed/src/partition.rs"));

    impl PartitionAssignment {
        /// Any owner list, untested: 01's `owner_of` and `owned_count` take such a one.
        pub fn untested(ranks: RankId, owners: Vec<RankId>) -> Self {
            Self { ranks, owners }
        }
    }
}

/// The file as it stands. Its division and its swaps take no weights and no list length; `weighed` calls them as those of the
/// oracle in force, where all weights are 1 and the list length is the default.
#[allow(dead_code)]
pub mod unchanged {
    include!(concat!(env!("RUST_SRC"), "/crates/hybit-distributed/src/multilevel.rs"));

    mod weighed {
        use super::*;

        fn abtm_multilevel_partition(
            matrix: &Csr32Matrix,
            workloads: &[usize],
            ranks: RankId,
            options: AbtmMultilevelOptions,
        ) -> Result<(PartitionAssignment, AbtmMultilevelStats), DistributedTopologyError> {
            assert!(workloads.iter().all(|&w| w == 1), "the unchanged division takes no workloads");
            super::abtm_multilevel_partition(matrix, ranks, options)
        }

        fn refine_fine_pair_swaps(
            matrix: &Csr32Matrix,
            weights: &[usize],
            list_length: usize,
            assignment: &mut PartitionAssignment,
            imbalance_per_mille: u32,
            passes: usize,
        ) -> Result<usize, DistributedTopologyError> {
            assert!(weights.iter().all(|&w| w == 1), "the unchanged swaps take no weights");
            assert_eq!(list_length as u64, crate::answers::SWAPPING[0], "the unchanged swaps take no list length");
            super::refine_fine_pair_swaps(matrix, assignment, imbalance_per_mille, passes)
        }

        include!("four_options.rs");
        include!("asked.rs");

        pub mod stages {
            include!("stages.rs");
        }
    }

    pub use weighed::{asked, options, stages};
}

#[allow(dead_code)]
pub mod in_force {
    include!(concat!(env!("OUT_DIR"), "/in_force.rs"));
    include!("options.rs");
    include!("asked.rs");

    pub mod stages {
        include!("stages.rs");
    }
}

/// With request P1 and no other, which changes no division whose workloads are all 1.
#[allow(dead_code)]
pub mod p1_alone {
    include!(concat!(env!("OUT_DIR"), "/p1_alone.rs"));
    include!("four_options.rs");
    include!("asked.rs");
}

/// The oracle in force without request P9, which changes no division with its defaults.
#[allow(dead_code)]
pub mod before_p9 {
    include!(concat!(env!("OUT_DIR"), "/before_p9.rs"));
    include!("four_options.rs");
    include!("asked.rs");
}
