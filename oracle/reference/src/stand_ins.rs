//! What the five source files take from files that are not built here. None of it can influence an answer: the errors and
//! identifiers are as lib.rs has them, the telemetry as its constructor in partition.rs, and the rest is never called.

// ---- hybit_core

#[derive(Clone, Debug, PartialEq, Eq)]
pub enum HybitError {
    InvalidMatrix(&'static str),
    InvalidArgument(&'static str),
    SizeOverflow,
    MissingDiagonal { row: usize },
    DimensionMismatch { expected: usize, actual: usize },
}

pub trait LinearOperator {
    fn rows(&self) -> usize;
    fn cols(&self) -> usize;
    fn apply(&self, x: &[f64], y: &mut [f64]) -> Result<(), HybitError>;
}

// ---- rayon, serial

pub mod prelude {
    pub trait Serial<T> {
        fn par_iter_mut(&mut self) -> std::slice::IterMut<'_, T>;
        fn par_chunks_mut(&mut self, size: usize) -> std::slice::ChunksMut<'_, T>;
    }

    impl<T> Serial<T> for [T] {
        fn par_iter_mut(&mut self) -> std::slice::IterMut<'_, T> {
            self.iter_mut()
        }
        fn par_chunks_mut(&mut self, size: usize) -> std::slice::ChunksMut<'_, T> {
            self.chunks_mut(size)
        }
    }
}

pub fn current_num_threads() -> usize {
    1
}

// ---- hybit_distributed's lib.rs

pub type GlobalDofId = u64;
pub type RankId = u32;
pub type LocalDofIndex = u32;

#[derive(Clone, Debug, PartialEq, Eq)]
pub enum DistributedTopologyError {
    InvalidRankCount,
    InvalidPartition(&'static str),
    RankOutOfRange { rank: RankId, ranks: RankId },
    GlobalDofOutOfRange { global: GlobalDofId, global_dofs: GlobalDofId },
    MatrixMustBeSquare { rows: usize, cols: usize },
    MatrixPartitionMismatch { matrix_rows: usize, global_dofs: GlobalDofId },
    LocalIndexOverflow,
    VectorLengthMismatch { expected: usize, actual: usize },
}

/// Named by `PartitionAssignment::from_contiguous` only.
pub struct ContiguousPartition {
    offsets: Vec<GlobalDofId>,
}

impl ContiguousPartition {
    pub fn global_dofs(&self) -> GlobalDofId {
        *self.offsets.last().unwrap()
    }
    pub fn rank_count(&self) -> RankId {
        (self.offsets.len() - 1) as RankId
    }
    pub fn owned_range(&self, rank: RankId) -> Result<std::ops::Range<GlobalDofId>, DistributedTopologyError> {
        let r = rank as usize;
        Ok(self.offsets[r]..self.offsets[r + 1])
    }
}

#[derive(Clone, Debug, PartialEq)]
pub struct PartitionTelemetry {
    pub ranks: RankId,
    pub global_dofs: GlobalDofId,
    pub global_nnz: usize,
    pub cut_nnz: usize,
    pub communication_volume: usize,
    pub directional_peer_relations: usize,
    pub max_neighbors: usize,
    pub min_owned_dofs: usize,
    pub max_owned_dofs: usize,
    pub owned_dof_imbalance: f64,
    pub min_local_nnz: usize,
    pub max_local_nnz: usize,
    pub local_nnz_imbalance: f64,
}
