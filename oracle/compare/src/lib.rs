//! The library as the comparison and the benchmark call it.
pub mod bridge;
pub mod bridge_season;
