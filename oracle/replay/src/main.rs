//! Writes what the Rust answers, for tests that run without it.
//!
//!     replay samples FOLDER           prints each link file of the folder by name, with its listing
//!     replay requests FOLDER OUT      writes OUT/stdin, OUT/stdout and OUT/REQUESTS.md: the requests of crates/replay, the listings, and what each
//!                                     request is for. FOLDER is that of the samples
//!     replay answers STDIN            prints the listings of the requests in that file, and sees that each slip is told by one of them
//!     replay many COUNT OUT           writes OUT/stdin and OUT/stdout: so many random requests, and the listings
// multilevel.rs, of which requests.rs has copies with a slip each, names these as of its own crate, and the matrix crate
extern crate reference as hybit_matrix;
use reference::{
    DistributedTopologyError, GlobalDofId, PartitionAssignment, PartitionTelemetry, RankId,
    partition_telemetry_assignment,
};

use reference::listing::listing;
use std::path::{Path, PathBuf};

mod requests;

fn main() {
    let words: Vec<String> = std::env::args().skip(1).collect();
    match words.iter().map(String::as_str).collect::<Vec<_>>().as_slice() {
        ["samples", folder] => {
            for (name, file) in samples(Path::new(folder)) {
                print!("== {name}\n{}", listing(&file));
            }
        }
        ["answers", stdin] => print!("{}", requests::answers(&std::fs::read(stdin).expect("the requests"))),
        ["requests", folder, out] => requests::write(samples(Path::new(folder)), Path::new(out)),
        ["many", count, out] => requests::write_many(count.parse().expect("a number"), Path::new(out)),
        _ => {
            eprintln!(
                "usage: replay samples FOLDER | replay requests FOLDER OUT | replay answers STDIN | replay many COUNT OUT"
            );
            std::process::exit(2);
        }
    }
}

/// Each link file of a folder: its name and its bytes.
fn samples(folder: &Path) -> Vec<(String, Vec<u8>)> {
    let entries = std::fs::read_dir(folder).expect("a folder");
    let mut paths: Vec<PathBuf> = entries.map(|entry| entry.expect("an entry").path()).collect();
    paths.retain(|path| path.extension().is_some_and(|e| e == "links"));
    paths.sort();
    let name = |path: &Path| path.file_stem().expect("a name").to_string_lossy().into_owned();
    paths.iter().map(|path| (name(path), std::fs::read(path).expect("a sample"))).collect()
}
