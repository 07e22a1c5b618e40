//! The exported functions of crate bridge. A slice passes as pointer and length.
use reference::answers::Options;
use reference::sites::Site;

/// A shared slice as the archive takes it.
macro_rules! lent {
    ($s:expr) => {
        ($s.as_ptr(), $s.len())
    };
}

/// A slice that is lent to be written.
macro_rules! lent_mut {
    ($s:expr) => {
        ($s.as_mut_ptr(), $s.len())
    };
}

mod exported {
    unsafe extern "C" {
        pub fn bridge_load_cap(total: u64, ranks: u32, imbalance_per_mille: u32) -> u64;
        pub fn bridge_minimum_load(total: u64, ranks: u32, imbalance_per_mille: u32) -> u64;
        pub fn bridge_validate(options: *const [u64; 6]) -> u32;
        pub fn bridge_from_owners(ranks: u32, owners: *const u32, owners_len: usize) -> u32;
        pub fn bridge_owner_of(owners: *const u32, owners_len: usize, v: u64, rank: *mut u32) -> u32;
        pub fn bridge_owned_count(ranks: u32, owners: *const u32, owners_len: usize, rank: u32, count: *mut u64)
        -> u32;
        pub fn bridge_neighbors_cause(
            offsets: *const u32,
            offsets_len: usize,
            neighbors: *const u32,
            neighbors_len: usize,
            v: u64,
        ) -> u32;
        pub fn bridge_neighbor_count(
            offsets: *const u32,
            offsets_len: usize,
            neighbors: *const u32,
            neighbors_len: usize,
            v: u64,
        ) -> u64;
        pub fn bridge_neighbor(
            offsets: *const u32,
            offsets_len: usize,
            neighbors: *const u32,
            neighbors_len: usize,
            v: u64,
            i: u64,
        ) -> u32;
        pub fn bridge_lists_cause(
            offsets: *const u32,
            offsets_len: usize,
            neighbors: *const u32,
            neighbors_len: usize,
        ) -> u32;
        pub fn bridge_workloads_cause(workloads: *const u32, workloads_len: usize, n: u64) -> u32;
        pub fn bridge_divide(
            offsets: *const u32,
            offsets_len: usize,
            neighbors: *const u32,
            neighbors_len: usize,
            workloads: *const u32,
            workloads_len: usize,
            ranks: u32,
            options: *const [u64; 6],
            owners: *mut u32,
            owners_len: usize,
            work: *mut u32,
            work_len: usize,
            stats: *mut [u64; 8],
        ) -> u32;
        pub fn bridge_link_file_cause(file: *const u8, file_len: usize) -> u32;
        pub fn bridge_read_link_file(
            file: *const u8,
            file_len: usize,
            offsets: *mut u32,
            offsets_len: usize,
            neighbors: *mut u32,
            neighbors_len: usize,
            workloads: *mut u32,
            workloads_len: usize,
            header: *mut [u64; 7],
        ) -> u32;
    }
}
use exported::*;

// SAFETY, of each call below: the archive's functions demand nothing and read only the slices that are passed with their
// lengths, which outlive the call; what they write lies behind a `&mut`, or in a slice that is lent as such.

pub fn load_cap(total: u64, ranks: u32, t: u32) -> u64 {
    unsafe { bridge_load_cap(total, ranks, t) }
}

pub fn minimum_load(total: u64, ranks: u32, t: u32) -> u64 {
    unsafe { bridge_minimum_load(total, ranks, t) }
}

pub fn validate(o: Options) -> u32 {
    unsafe { bridge_validate(&o.numbers()) }
}

pub fn from_owners(ranks: u32, owners: &[u32]) -> u32 {
    let (p, n) = lent!(owners);
    unsafe { bridge_from_owners(ranks, p, n) }
}

/// The number and the value. What is behind the `&mut` before the call is not 0, so that a refusal is seen to write it.
pub fn owner_of(owners: &[u32], v: u64) -> (u32, u32) {
    let (p, n) = lent!(owners);
    let mut rank = 77;
    let number = unsafe { bridge_owner_of(p, n, v, &mut rank) };
    (number, rank)
}

pub fn owned_count(ranks: u32, owners: &[u32], rank: u32) -> (u32, u64) {
    let (p, n) = lent!(owners);
    let mut count = 77;
    let number = unsafe { bridge_owned_count(ranks, p, n, rank, &mut count) };
    (number, count)
}

/// The three calls on one vertex's neighbors: the cause, and the part's numbers, one by one, with the 0 past its end.
pub fn neighbors_of(offsets: &[u32], neighbors: &[u32], v: u64) -> (u32, Vec<u32>) {
    let ((op, on), (np, nn)) = (lent!(offsets), lent!(neighbors));
    let number = unsafe { bridge_neighbors_cause(op, on, np, nn, v) };
    let count = unsafe { bridge_neighbor_count(op, on, np, nn, v) };
    let part = (0..=count).map(|i| unsafe { bridge_neighbor(op, on, np, nn, v, i) });
    (number, part.collect())
}

pub fn lists_cause(offsets: &[u32], neighbors: &[u32]) -> u32 {
    let ((op, on), (np, nn)) = (lent!(offsets), lent!(neighbors));
    unsafe { bridge_lists_cause(op, on, np, nn) }
}

pub fn link_file_cause(file: &[u8]) -> u32 {
    let (p, n) = lent!(file);
    unsafe { bridge_link_file_cause(p, n) }
}

pub fn workloads_cause(workloads: &[u32], n: u64) -> u32 {
    let (p, len) = lent!(workloads);
    unsafe { bridge_workloads_cause(p, len, n) }
}

/// The number and the header's seven, which are not 0 before the call.
pub fn read_link_file(
    file: &[u8],
    offsets: &mut [u32],
    neighbors: &mut [u32],
    workloads: &mut [u32],
) -> (u32, [u64; 7]) {
    let (p, n) = lent!(file);
    let ((op, on), (np, nn), (wp, wn)) = (lent_mut!(offsets), lent_mut!(neighbors), lent_mut!(workloads));
    let mut header = [77; 7];
    let number = unsafe { bridge_read_link_file(p, n, op, on, np, nn, wp, wn, &mut header) };
    (number, header)
}

/// The number and the eight stats, which are not 0 before the call.
pub fn divide(
    site: &Site,
    workloads: &[u32],
    ranks: u32,
    options: Options,
    owners: &mut [u32],
    work: &mut [u32],
) -> (u32, [u64; 8]) {
    let ((op, on), (np, nn), (lp, ln)) = (lent!(site.offsets), lent!(site.neighbors), lent!(workloads));
    let ((rp, rn), (wp, wn)) = (lent_mut!(owners), lent_mut!(work));
    let mut stats = [77; 8];
    let number =
        unsafe { bridge_divide(op, on, np, nn, lp, ln, ranks, &options.numbers(), rp, rn, wp, wn, &mut stats) };
    (number, stats)
}
