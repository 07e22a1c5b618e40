//! Hipstern's division beside that of the oracle in force, in one process and one run: how many times as fast it is. Two more tables
//! have crane weeks and season windows, which the Rust has none of, beside a plain count in Rust, and a fourth the telemetry beside
//! that of the unchanged Rust.
//!
//!     benchmark [--times NUMBER] [WORD..]
//!
//! Each row is a site, a number of ranks and options; the workloads are 1, and the swaps' lists of 8, unless its name says others.
//! Both divide it in turn, NUMBER times (5 if not given; once where the Rust takes more than two seconds), and the least time of
//! each counts. Owners, moves and cut are compared too. With words, only rows whose name has one of them run, and a table without
//! rows is left out. The Rust gets its matrix and its weights ready made and allocates as it goes; the library gets its lists and
//! workloads, which it tests, and slices that were lent to it before and hold what the run before left. Memory is what a division
//! takes beside the site: the lent owners and work numbers, and the most that the Rust has allocated at one time, told by one more
//! run that is not timed.
//!
//! A row of the second table is a list of visit days and a block of w days. The plain count (reference::crane) goes through the
//! whole list for each visit, and tests nothing; the library, which tests the list, runs 200 times for each time of it.
//!
//! A row of the third table is a number of ranks, to which the vertices belong in turn, and windows with just enough open days for
//! each rank. The plain count (reference::season) goes through all vertices before each one and through its rank's days; it gets the
//! windows ready made, and tests nothing. The library tests owners and windows, and runs 200 times for each time of it.
//!
//! A row of the fourth table is a site and a number of ranks, to which the vertices belong in runs of equal length, or in turn, so that
//! nearly all links are cut; the last row is sixteen of these sites. The Rust (`partition_telemetry_assignment`, on each of the sites)
//! gets its matrix and its assignment ready made, and finds the remote vertices of each rank too; the library tests lists and owners,
//! and its list test is timed by itself too. All run in turn, ten times NUMBER times.
use compare::{bridge, bridge_season};
use reference::answers::{self, MAX_VERTICES, Options, lent_needs};
use reference::crane::{self, LAST_DAY, MAX_VISITS};
use reference::in_force::{self, abtm_multilevel_partition};
use reference::random::Random;
use reference::season::{self, Season};
use reference::sites::{self, Question, Site};
use reference::telemetry::{self, Divided, MAX_SITES, Sites};
use reference::{PartitionAssignment, forced, partition_telemetry_assignment};
use std::alloc::{GlobalAlloc, Layout, System};
use std::hint::black_box;
use std::sync::atomic::{AtomicBool, AtomicUsize, Ordering::Relaxed};
use std::time::{Duration, Instant};

/// The system's allocator, which keeps count while it is told to.
struct Counting;

static COUNTS: AtomicBool = AtomicBool::new(false);
static HELD: AtomicUsize = AtomicUsize::new(0);
static MOST: AtomicUsize = AtomicUsize::new(0);

fn taken(bytes: usize) {
    if COUNTS.load(Relaxed) {
        let held = HELD.fetch_add(bytes, Relaxed) + bytes;
        MOST.fetch_max(held, Relaxed);
    }
}

fn given_back(bytes: usize) {
    if COUNTS.load(Relaxed) {
        HELD.fetch_sub(bytes, Relaxed);
    }
}

// SAFETY: every call is passed on to the system's allocator as it came.
unsafe impl GlobalAlloc for Counting {
    unsafe fn alloc(&self, layout: Layout) -> *mut u8 {
        taken(layout.size());
        unsafe { System.alloc(layout) }
    }

    unsafe fn alloc_zeroed(&self, layout: Layout) -> *mut u8 {
        taken(layout.size());
        unsafe { System.alloc_zeroed(layout) }
    }

    unsafe fn realloc(&self, p: *mut u8, layout: Layout, size: usize) -> *mut u8 {
        taken(size);
        given_back(layout.size());
        unsafe { System.realloc(p, layout, size) }
    }

    unsafe fn dealloc(&self, p: *mut u8, layout: Layout) {
        given_back(layout.size());
        unsafe { System.dealloc(p, layout) }
    }
}

#[global_allocator]
static ALLOCATOR: Counting = Counting;

/// The most bytes that `run` has allocated at one time.
fn most_allocated(run: impl FnOnce()) -> usize {
    HELD.store(0, Relaxed);
    MOST.store(0, Relaxed);
    COUNTS.store(true, Relaxed);
    run();
    COUNTS.store(false, Relaxed);
    MOST.load(Relaxed)
}

struct Row {
    name: String,
    asked: Question,
}

/// What a row takes: the least times of both, and the bytes of both.
struct Taken {
    ours: Duration,
    rust: Duration,
    lent: usize,
    allocated: usize,
}

/// What `run` answers; its time counts if it is the least.
fn timed<T>(least: &mut Duration, run: impl FnOnce() -> T) -> T {
    let start = Instant::now();
    let answer = black_box(run());
    *least = start.elapsed().min(*least);
    answer
}

/// A difference ends the run.
fn measure(row: &Row, times: u32) -> Taken {
    let Question { site, workloads, ranks, options } = &row.asked;
    let (n, m) = (site.vertices(), site.neighbors.len());
    let matrix = answers::matrix(site);
    let weights: Vec<usize> = workloads.iter().map(|&w| w as usize).collect();
    let asked = || abtm_multilevel_partition(&matrix, &weights, *ranks, in_force::options(options.numbers()));
    let (owners_need, work_need) = lent_needs(n, m, *ranks, options.max_levels);
    let (mut owners, mut work) = (vec![1u32; owners_need], vec![1u32; work_need]);
    let (mut ours, mut rust) = (Duration::MAX, Duration::MAX);
    for _ in 0..times {
        let lent = || bridge::divide(site, workloads, *ranks, *options, &mut owners, &mut work);
        let (number, stats) = timed(&mut ours, lent);
        let answer = timed(&mut rust, asked);
        match answer {
            Ok((assignment, s)) => {
                assert_eq!(
                    (number, stats[5], stats[6]),
                    (0, s.refinement_moves as u64, s.final_cut_nnz as u64),
                    "{}",
                    row.name
                );
                assert_eq!(owners, assignment.owners(), "{}", row.name);
            }
            Err(_) => assert_ne!(number, 0, "{}", row.name),
        }
        if rust > Duration::from_secs(2) {
            break;
        }
    }
    let allocated = most_allocated(|| drop(asked()));
    Taken { ours, rust, lent: 4 * (owners_need + work_need), allocated }
}

/// Large sites of many shapes, and their names.
fn shapes(random: &mut Random) -> [(&'static str, Site); 7] {
    let n = MAX_VERTICES;
    [
        ("grid", sites::grid(128, 128)),
        ("geometric", sites::geometric(random, n, 12_700)),
        ("path", sites::path(n)),
        ("star", sites::star(n)),
        ("tree", sites::tree(random, n, n)),
        ("hubs", sites::hubs(n, 4)),
        ("skewed hub", sites::skewed_hub(n, 11_000, 5)),
    ]
}

fn rows() -> Vec<Row> {
    let mut random = Random::new(1);
    let default = Options::of([12, 64, 30, 2]);
    let row =
        |name: &str, site: Site, ranks, options| Row { name: name.into(), asked: Question::new(site, ranks, options) };
    let mut rows = Vec::new();
    for (name, site) in shapes(&mut random) {
        for ranks in [2, 8, 64, 256] {
            rows.push(row(name, site.clone(), ranks, default));
        }
    }
    rows.push(row("forty turbines", sites::grid(5, 8), 4, default));
    let forced_options = |imbalance_per_mille| Options {
        coarse_vertices_per_rank: u64::MAX,
        imbalance_per_mille,
        refinement_passes: u64::MAX,
        ..default
    };
    rows.push(row("forced moves", forced::moves(64, 256), 64, forced_options(1)));
    let swaps = forced::swaps(64, 256);
    rows.push(row("forced swaps", swaps.clone(), 64, forced_options(0)));
    rows.push(row("forced swaps, lists of 12", swaps, 64, forced_options(0).with([12, 8])));
    let mut weighed = row("grid, workloads 1 to 10,000", sites::grid(128, 128), 8, default);
    weighed.asked.workloads = (0..MAX_VERTICES).map(|_| random.between(1, 10_000) as u32).collect();
    rows.push(weighed);
    rows
}

fn ms(time: Duration) -> f64 {
    time.as_secs_f64() * 1e3
}

/// The table of divisions, and the line below it.
fn divisions(rows: &[Row], times: u32) {
    println!("| site | n | m | k | the Rust, ms | the library, ms | times as fast | the Rust, MB | the library, MB |");
    println!("|---|---|---|---|---|---|---|---|---|");
    let (mut logs, mut count, mut least) = (0.0, 0, f64::MAX);
    for row in rows {
        // a small site is divided often enough to be timed
        let Question { site, ranks, .. } = &row.asked;
        let repeated = if site.vertices() < 1000 { 200 * times } else { times };
        let Taken { ours, rust, lent, allocated } = measure(row, repeated);
        let ratio = rust.as_secs_f64() / ours.as_secs_f64();
        let (n, m) = (site.vertices(), site.neighbors.len());
        let mb = |bytes: usize| bytes as f64 / 1e6;
        println!(
            "| {} | {n} | {m} | {ranks} | {:.3} | {:.3} | {ratio:.1} | {:.2} | {:.2} |",
            row.name,
            ms(rust),
            ms(ours),
            mb(allocated),
            mb(lent)
        );
        logs += ratio.ln();
        count += 1;
        least = least.min(ratio);
    }
    println!(
        "\n{count} rows: {:.1} times as fast in the geometric mean, {least:.1} at least",
        (logs / f64::from(count)).exp()
    );
}

// ---- crane weeks

struct Week {
    name: &'static str,
    days: Vec<u32>,
    w: u32,
}

fn weeks() -> Vec<Week> {
    let (n, last) = (MAX_VISITS, LAST_DAY as usize);
    let mut random = Random::new(1);
    let spread: Vec<u32> = (0..n).map(|i| (i * last / (n - 1)) as u32).collect();
    let mut drawn: Vec<u32> = (0..n).map(|_| random.index(last + 1) as u32).collect();
    drawn.sort_unstable();
    let week = |name, days: &[u32], w| Week { name, days: days.to_vec(), w };
    vec![
        week("visits spread evenly", &spread, 7),
        week("visits spread evenly", &spread, 366),
        week("visits on drawn days", &drawn, 7),
        week("visits all on one day", &vec![LAST_DAY / 2; n], 7),
        week("visits spread evenly", &spread, 1),
    ]
}

/// The least times of the library and of the plain count. A difference ends the run.
fn measure_week(week: &Week, times: u32) -> (Duration, Duration) {
    let (mut ours, mut plain) = (Duration::MAX, Duration::MAX);
    let asked = || (black_box(week.days.as_slice()), black_box(week.w));
    for _ in 0..times {
        let (days, w) = asked();
        let counted = timed(&mut plain, || crane::plain(days, w));
        for _ in 0..200 {
            let (days, w) = asked();
            let answer = timed(&mut ours, || bridge_season::crane_week(days, w));
            assert_eq!(answer, (0, counted), "{}, w {w}", week.name);
        }
    }
    (ours, plain)
}

/// The table of crane weeks, after an empty line.
fn crane_weeks(weeks: &[Week], times: u32) {
    println!("\n| visit days | n | w | the plain n × n count in Rust, ms | the library, ms | times as fast |");
    println!("|---|---|---|---|---|---|");
    for week in weeks {
        let (ours, plain) = measure_week(week, times);
        let ratio = plain.as_secs_f64() / ours.as_secs_f64();
        let (name, n, w) = (week.name, week.days.len(), week.w);
        println!("| {name} | {n} | {w} | {:.3} | {:.3} | {ratio:.1} |", ms(plain), ms(ours));
    }
}

// ---- season windows

struct Windows {
    name: &'static str,
    count: u32,
    season: Season,
}

/// All vertices in turn for so many ranks, each with so many windows, two closed days apart, of these lengths but the last, which has
/// the days that are left.
fn windows(name: &'static str, ranks: u32, count: u32, length: impl Fn(u32) -> u32) -> Windows {
    let owners: Vec<u32> = (0..MAX_VERTICES as u32).map(|v| v % ranks).collect();
    let rank_windows = |rank: u32| {
        let mut left = owners.iter().filter(|&&owner| owner == rank).count() as u32;
        let mut days = Vec::new();
        for i in 1..=count {
            let first = days.last().map_or(0, |end| end + 2);
            let open = if i < count { length(left / (count + 1 - i)) } else { left };
            days.extend([first, first + open]);
            left -= open;
        }
        days
    };
    let days: Vec<Vec<u32>> = (0..ranks).map(rank_windows).collect();
    Windows { name, count, season: Season::new(owners, &days) }
}

fn all_windows() -> Vec<Windows> {
    let even = |share| share;
    vec![
        windows("windows of equal length", 5, 32, even),
        windows("one window each", 5, 1, even),
        windows("windows of one day, then a long one", 5, 32, |_| 1),
        windows("windows of equal length", 256, 32, even),
        windows("one window each", 256, 1, even),
    ]
}

/// The least times of the library and of the plain count. A difference ends the run.
fn measure_windows(row: &Windows, times: u32) -> (Duration, Duration) {
    let (mut ours, mut plain) = (Duration::MAX, Duration::MAX);
    let good = season::windows(&row.season).expect("good windows");
    let mut visits = vec![1u32; row.season.lent];
    for _ in 0..times {
        let (owners, good) = (black_box(row.season.owners.as_slice()), black_box(good.as_slice()));
        let counted = timed(&mut plain, || season::plain(owners, good)).expect("enough days");
        for _ in 0..200 {
            let Season { ranks, owners, counts, days, .. } = black_box(&row.season);
            let number = timed(&mut ours, || bridge_season::season_days(*ranks, owners, counts, days, &mut visits));
            assert_eq!((number, &visits), (0, &counted), "{}, k {ranks}", row.name);
            visits.fill(1);
        }
    }
    (ours, plain)
}

/// The table of season windows, after an empty line.
fn season_windows(rows: &[Windows], times: u32) {
    println!(
        "\n| windows | n | k | windows of a rank | the plain count in Rust, ms | the library, ms | times as fast |"
    );
    println!("|---|---|---|---|---|---|---|");
    for row in rows {
        let (ours, plain) = measure_windows(row, times);
        let ratio = plain.as_secs_f64() / ours.as_secs_f64();
        let (Windows { name, count, season }, n) = (row, row.season.owners.len());
        println!("| {name} | {n} | {} | {count} | {:.3} | {:.3} | {ratio:.1} |", season.ranks, ms(plain), ms(ours));
    }
}

// ---- telemetry

struct Run {
    name: String,
    sites: Vec<Divided>,
}

/// Each of some shapes among 8 and 256 ranks, and sixteen of these.
fn runs() -> Vec<Run> {
    let owners: [(&str, fn(u32, u32, u32) -> u32); 2] =
        [("", |v, ranks, n| v * ranks / n), (", ranks in turn", |v, ranks, _| v % ranks)];
    let mut runs = Vec::new();
    for (name, site) in shapes(&mut Random::new(1)) {
        let n = site.vertices() as u32;
        for (kind, owner) in owners.iter().filter(|_| !["tree", "skewed hub"].contains(&name)) {
            for ranks in [8, 256] {
                let owners = (0..n).map(|v| owner(v, ranks, n)).collect();
                let sites = vec![Divided { site: site.clone(), ranks, owners }];
                runs.push(Run { name: format!("telemetry, {name}{kind}"), sites });
            }
        }
    }
    let sites = runs.iter().flat_map(|run| run.sites.clone()).take(MAX_SITES).collect();
    runs.push(Run { name: "telemetry, sixteen sites".into(), sites });
    runs
}

/// The least times of the library, of its list test by itself, and of the Rust. A difference ends the run.
fn measure_run(run: &Run, times: u32) -> [Duration; 3] {
    let [mut ours, mut test, mut rust] = [Duration::MAX; 3];
    let assignment = |one: &Divided| PartitionAssignment::from_owners(one.ranks, one.owners.clone());
    let ready = |one: &Divided| (answers::matrix(&one.site), assignment(one).expect("good owners"));
    let ready: Vec<_> = run.sites.iter().map(ready).collect();
    let lent = Sites::new(&run.sites);
    let expected = telemetry::sites_balance(&lent).expect("good sites");
    for _ in 0..10 * times {
        let all = || ready.iter().map(|(matrix, owners)| partition_telemetry_assignment(black_box(matrix), owners));
        let told: Vec<_> = timed(&mut rust, || all().map(|told| told.expect("an owner for each vertex")).collect());
        let sound = |one: &Divided| bridge::lists_cause(&one.site.offsets, black_box(&one.site.neighbors)) == 0;
        assert!(timed(&mut test, || run.sites.iter().all(sound)), "{}", run.name);
        if let [one] = &run.sites[..] {
            let mut ratios = [0.0; 2];
            let number = timed(&mut ours, || bridge_season::telemetry(black_box(one), &mut ratios));
            let of_rust = [told[0].owned_dof_imbalance, told[0].local_nnz_imbalance];
            assert_eq!((number, ratios.map(f64::to_bits)), (0, of_rust.map(f64::to_bits)), "{}", run.name);
        } else {
            let mut totals = [0; 4];
            let number = timed(&mut ours, || bridge_season::sites_balance(black_box(&lent), &mut totals));
            let cut: usize = told.iter().map(|told| told.cut_nnz / 2).sum();
            assert_eq!((number, totals, cut as u64), (0, expected, totals[2]), "{}", run.name);
        }
    }
    [ours, test, rust]
}

/// The table of telemetry, after an empty line.
fn telemetry_runs(runs: &[Run], times: u32) {
    println!("\n| site | n | m | k | the Rust, ms | the library, ms | of it the list test, ms | times as fast |");
    println!("|---|---|---|---|---|---|---|---|");
    for run in runs {
        let [ours, test, rust] = measure_run(run, times);
        let ratio = rust.as_secs_f64() / ours.as_secs_f64();
        let [n, m, k] = [0, 1, 2].map(|place| run.sites.iter().map(|one| one.sizes()[place]).sum::<u32>());
        let [rust, ours, test] = [rust, ours, test].map(ms);
        println!("| {} | {n} | {m} | {k} | {rust:.3} | {ours:.3} | {test:.3} | {ratio:.1} |", run.name);
    }
}

fn main() {
    let (mut times, mut only) = (5u32, Vec::new());
    let mut words = std::env::args().skip(1);
    while let Some(word) = words.next() {
        match word.as_str() {
            "--times" => times = words.next().and_then(|w| w.parse().ok()).expect("--times NUMBER"),
            _ => only.push(word),
        }
    }
    let chosen = |name: &str| only.is_empty() || only.iter().any(|w| name.contains(w.as_str()));
    let rows: Vec<Row> = rows().into_iter().filter(|row| chosen(&row.name)).collect();
    let weeks: Vec<Week> = weeks().into_iter().filter(|week| chosen(week.name)).collect();
    let windows: Vec<Windows> = all_windows().into_iter().filter(|row| chosen(row.name)).collect();
    let runs: Vec<Run> = runs().into_iter().filter(|run| chosen(&run.name)).collect();
    if !rows.is_empty() {
        divisions(&rows, times);
    }
    if !weeks.is_empty() {
        crane_weeks(&weeks, times);
    }
    if !windows.is_empty() {
        season_windows(&windows, times);
    }
    if !runs.is_empty() {
        telemetry_runs(&runs, times);
    }
}
