//! Asks the Rust for one division: the oracle in force, with what document 02 asks.
//!
//!     ask [--trace] < site
//!
//! The site is text, in lines (a ; ends a line too; what follows a # is left out):
//!     n k L per t passes       vertices, ranks, max_levels, coarse_vertices_per_rank, imbalance_per_mille, refinement_passes
//!     a b                      a link, once, in either order; as many lines as there are links
//!     workloads 3 1 2 1        one for each vertex; without this line each is 1
//!     swaps 8 4                swap_list_length and swap_pass_factor; without this line they are 8 and 4
//!
//! It prints `refused NUMBER`, or
//!     owners 0 0 1 1
//!     stats 0 4 0 0 0 0 2 2    levels, coarsest, pairs, singletons, restarts, moves (with swaps), cut, volume
//! With --trace it prints before that what each stage of the Rust made of the site (the same stages, called one by one).
//!
//! From oracle/: HIPSTERN_RUST_SRC=.. cargo run -q --release -p ask -- --trace < site
use reference::answers::{Options, partition};
use reference::sites::{Question, Site};
use reference::trace::{Trace, trace};
use std::io::Read;

fn main() {
    let traced = match std::env::args().skip(1).collect::<Vec<_>>().as_slice() {
        [] => false,
        [word] if word == "--trace" => true,
        _ => stop("usage: ask [--trace] < site"),
    };
    let mut text = String::new();
    std::io::stdin().read_to_string(&mut text).unwrap_or_else(|e| stop(&e.to_string()));
    let question = question(&text);
    let answer = partition(&question);
    if traced && !matches!(answer, Err(1..=5 | 13 | 17)) {
        print_stages(&trace(&question));
    }
    match answer {
        Err(number) => println!("refused {number}"),
        Ok((owners, stats)) => {
            println!("owners {}", words(&owners));
            println!("stats {}", words(&stats));
        }
    }
}

fn question(text: &str) -> Question {
    let lines = text.lines().flat_map(|line| line.split('#').next().unwrap_or("").split(';')).map(str::trim);
    let mut lines: Vec<_> = lines.filter(|line| !line.is_empty()).collect();
    let (loads, swapping) = (named(&mut lines, "workloads"), named(&mut lines, "swaps"));
    let lines: Vec<_> = lines.into_iter().map(numbers).collect();
    let Some((first, rest)) = lines.split_first() else { stop("no line") };
    let &[n, k, ref options @ ..] = first.as_slice() else { stop(FIRST) };
    let links = rest.iter().map(|line| match line.as_slice() {
        &[a, b] if a < n && b < n => (a as usize, b as usize),
        _ => stop(&format!("no link between two vertices below {n}: {line:?}")),
    });
    let site = Site::new(n as usize, &links.collect::<Vec<_>>());
    let ranks = u32::try_from(k).unwrap_or_else(|_| stop("k is above 2^32 - 1"));
    let options = options.try_into().unwrap_or_else(|_| stop(FIRST));
    let mut question = Question::new(site, ranks, Options::of(options));
    if let Some(two) = swapping {
        question.options = question.options.with(two.try_into().unwrap_or_else(|_| stop("swaps has two numbers")));
    }
    match loads {
        None => question,
        Some(loads) => question.weighed(loads.into_iter().map(narrow).collect()),
    }
}

const FIRST: &str = "the first line is n k L per t passes";

/// The numbers of the line that begins with this word, which is taken from the others.
fn named(lines: &mut Vec<&str>, word: &str) -> Option<Vec<u64>> {
    let found: Vec<_> = lines.extract_if(.., |line| line.starts_with(word)).collect();
    match found.as_slice() {
        [] => None,
        [line] => Some(numbers(line.trim_start_matches(word))),
        _ => stop(&format!("{word} twice")),
    }
}

fn narrow(workload: u64) -> u32 {
    u32::try_from(workload).unwrap_or_else(|_| stop("a workload is above 2^32 - 1"))
}

fn numbers(line: &str) -> Vec<u64> {
    line.split_whitespace().map(|w| w.parse().unwrap_or_else(|_| stop(&format!("no number: {w}")))).collect()
}

fn words<T: ToString>(list: &[T]) -> String {
    list.iter().map(T::to_string).collect::<Vec<_>>().join(" ")
}

fn stop(why: &str) -> ! {
    eprintln!("ask: {why}");
    std::process::exit(2)
}

fn print_stages(trace: &Trace) {
    println!("cap {} floor {}", trace.cap, trace.floor);
    for (step, word) in
        trace.coarsened.iter().map(|s| (s, "coarsened")).chain(trace.discarded.iter().map(|s| (s, "discarded")))
    {
        println!("{word} into {} groups: {}", step.rows.len(), words(&step.fine_to_coarse));
        println!("  weights {}", words(&step.weights));
        for (v, row) in step.rows.iter().enumerate() {
            println!("  row {v}: {}", words(row));
        }
    }
    println!("seeds {}", words(&trace.seeds));
    if let Ok(grown) = &trace.growth {
        println!("growth {} restarts {}", words(&grown.owners), grown.restarts);
    }
    for m in &trace.moved {
        println!("level {} start {}", m.level, words(&m.start));
        println!("level {} moved {} moves {}", m.level, words(&m.end), m.count);
    }
    if let Some(m) = &trace.swapped {
        println!("swapped {} swaps {}", words(&m.end), m.count);
    }
}
