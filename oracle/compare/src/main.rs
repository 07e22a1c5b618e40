//! Compares Hipstern, through the archives of crates bridge, bridge_stages and bridge_season, with the Rust (crate reference).
//!
//!     compare [--long] [--seed NUMBER] [--count NUMBER] [WORD..]
//!
//! Words choose the checks whose name has one of them; with none, all are run.
//! The count is how many random inputs a check draws (20000 if not given, 1000000 with --long). With --long the graphs of five
//! vertices are divided in every check of all small ones, the largest forced runs are made, and request P14's least imbalance is
//! tried for every number of vertices and ranks. The exit status is 1 where an answer differs.
mod balance;
mod bridge_stages;
mod byhand;
mod crane;
mod divided;
mod division;
mod levels;
mod link_file;
mod links;
mod report;
mod season;
mod seasons;
mod stages;
mod stuck;
mod telemetry;

use compare::{bridge, bridge_season};
use report::Report;

fn usage() -> ! {
    eprintln!("usage: compare [--long] [--seed NUMBER] [--count NUMBER] [WORD..]");
    std::process::exit(2)
}

fn main() {
    let (mut seed, mut count, mut long, mut report) = (1u64, None, false, Report::default());
    let mut words = std::env::args().skip(1);
    while let Some(word) = words.next() {
        let mut number = || words.next().and_then(|w| w.parse().ok()).unwrap_or_else(|| usage());
        match word.as_str() {
            "--seed" => seed = number(),
            "--count" => count = Some(number()),
            "--long" => long = true,
            option if option.starts_with('-') => usage(),
            _ => report.chosen.push(word),
        }
    }
    let count = count.unwrap_or(if long { 1_000_000 } else { 20_000 });
    byhand::check(&mut report, seed, count);
    links::compare(&mut report, seed, count);
    crane::compare(&mut report, seed, count);
    season::compare(&mut report, seed, count);
    telemetry::compare(&mut report, seed, count);
    balance::compare(&mut report, seed, count);
    link_file::compare(&mut report, seed, count);
    stages::compare(&mut report, seed, count);
    division::compare(&mut report, seed, count, long);
    stuck::compare(&mut report, seed, count, long);
    std::process::exit(if report.end() { 0 } else { 1 });
}
