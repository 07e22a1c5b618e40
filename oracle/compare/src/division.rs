//! The whole division beside the Rust's: refusal, owners, all eight stats, and what was written of the lent slices and what was not.
use crate::bridge;
use crate::byhand;
use crate::report::{Check, Report};
use reference::answers::{
    Division, MAX_LIST_LENGTH, MAX_PASS_FACTOR, MAX_WORKLOAD, Options, lent_needs, lists_cause, partition,
    partition_lent, vertex_count,
};
use reference::forced;
use reference::random::Random;
use reference::sites::{self, Question, Site, some_options, some_swapping, some_workloads, usual_options};
use reference::trace::trace;

/// What a call answers and leaves: the number, the stats, the owner slice, and whether the work slice, the workloads and all guards
/// are as they should be.
type Left = (u32, [u64; 8], Vec<u32>, bool);

/// A slice to lend, between two rows of guard numbers.
struct Guarded(Vec<u32>);

impl Guarded {
    const GUARD: [u32; 8] = [0x5afe_5afe; 8];

    fn new(lent: impl Iterator<Item = u32>) -> Self {
        Guarded(Self::GUARD.into_iter().chain(lent).chain(Self::GUARD).collect())
    }

    fn lent(&mut self) -> &mut [u32] {
        let end = self.0.len() - 8;
        &mut self.0[8..end]
    }

    fn untouched(&self) -> bool {
        self.0.starts_with(&Self::GUARD) && self.0.ends_with(&Self::GUARD)
    }
}

/// One call of both, with `owners_more` and `work_more` numbers lent beyond what is needed (or fewer): the Rust's answer.
pub(crate) fn answered(
    check: &mut Check,
    random: &mut Random,
    question: &Question,
    owners_more: i64,
    work_more: i64,
) -> Result<Division, u32> {
    let &Question { ref site, ref workloads, ranks, options } = question;
    let (n, m) = (vertex_count(&site.offsets), site.neighbors.len());
    // what is out of the limits is lent little: it is refused before
    let within = n <= 16_384 && m <= 131_072 && ranks <= 256 && options.max_levels <= 32;
    let (owners_need, work_need) = if within { lent_needs(n, m, ranks, options.max_levels) } else { (n, 100) };
    let lent = |need: usize, more: i64| (need as i64 + more).max(0) as usize;
    let mut owners = Guarded::new((0..lent(owners_need, owners_more)).map(|_| random.draw() as u32));
    let was = |i: usize| (i as u32).wrapping_mul(2_654_435_761) | 1;
    let work_lent = lent(work_need, work_more);
    let mut work = Guarded::new((0..work_lent).map(was));
    let mut loads = Guarded::new(workloads.iter().copied());
    let owners_before = owners.lent().to_vec();

    let (number, stats) = bridge::divide(site, loads.lent(), ranks, options, owners.lent(), work.lent());
    let zeroed = if matches!(number, 1..=5 | 13 | 17) { 0 } else { work_need };
    let kept = work.lent().iter().enumerate().all(|(i, &x)| x == if i < zeroed { 0 } else { was(i) });
    let guarded = [&owners, &work, &loads].iter().all(|slice| slice.untouched());
    let ours: Left = (number, stats, owners.lent().to_vec(), kept && guarded && loads.lent() == workloads);

    let rust = partition_lent(question, owners_before.len(), work_lent);
    let expected: Left = match &rust {
        Ok((written, stats)) => {
            let mut after = owners_before;
            after[..n].copy_from_slice(written);
            (0, *stats, after, true)
        }
        Err(number) => (*number, [0; 8], owners_before, true),
    };
    let sound = || lists_cause(&site.offsets, &site.neighbors) == 0;
    check.same(expected.0, ours, expected, || if sound() { question.text() } else { format!("{question:?}") });
    rust
}

/// The same: the Rust's division, if there is one.
fn compare_one(
    check: &mut Check,
    random: &mut Random,
    question: &Question,
    owners_more: i64,
    work_more: i64,
) -> Option<Division> {
    answered(check, random, question, owners_more, work_more).ok()
}

/// The same, with the moves and swaps counted as steps.
fn counted(check: &mut Check, random: &mut Random, question: &Question) {
    let made = compare_one(check, random, question, 2, 5);
    check.made(made.map_or(0, |(_, stats)| stats[5]));
}

/// Options of each max_levels, coarse_vertices_per_rank, imbalance_per_mille and refinement_passes.
fn grid([levels, per_rank, imbalance, passes]: [&[u64]; 4]) -> Vec<Options> {
    let mut grid = Vec::new();
    for &max_levels in levels {
        for &coarse_vertices_per_rank in per_rank {
            for &imbalance_per_mille in imbalance {
                for &refinement_passes in passes {
                    let filed = [max_levels, coarse_vertices_per_rank, imbalance_per_mille, refinement_passes];
                    grid.push(Options::of(filed));
                }
            }
        }
    }
    grid
}

/// All graphs of up to so many vertices, all ranks, these options, and each vertex's workload of these five.
fn small(check: &mut Check, random: &mut Random, most: usize, grid: &[Options], workloads: [u32; 5]) {
    for n in 1..=most {
        for code in 0..1u64 << (n * (n - 1) / 2) {
            let site = sites::numbered(n, code);
            for ranks in 1..=n as u32 {
                for &options in grid {
                    let question = Question::new(site.clone(), ranks, options).weighed(workloads[..n].to_vec());
                    compare_one(check, random, &question, 1, 3);
                }
            }
        }
    }
}

/// Options of which one is out of its range.
fn bad_options(random: &mut Random) -> Options {
    let mut o = some_options(random);
    match random.below(10) {
        0 => o.max_levels = 0,
        1 => o.coarse_vertices_per_rank = 0,
        2 => o.refinement_passes = 0,
        3 => o.imbalance_per_mille = 501,
        4 => o.imbalance_per_mille = (1 << 32) + 30,
        5 => o.max_levels = 33,
        6 => o.swap_list_length = random.pick(&[0, MAX_LIST_LENGTH + 1, (1 << 32) + 8, u64::MAX]),
        7 => o.swap_pass_factor = random.pick(&[0, MAX_PASS_FACTOR + 1, (1 << 32) + 4, u64::MAX]),
        8 => o = o.with([0, 0]),
        _ => (o.refinement_passes, o.swap_pass_factor) = (0, 0),
    }
    o
}

/// Workloads that 13 refuses: one is out of its range, or there are not n of them.
fn bad_workloads(random: &mut Random, n: usize) -> Vec<u32> {
    let mut workloads = some_workloads(random, n);
    let stray = random.pick(&[0, MAX_WORKLOAD + 1, 1 << 16, u32::MAX]);
    match random.below(6) {
        0 => workloads.push(1),
        1 => drop(workloads.pop()),
        2 => workloads.clear(),
        _ => workloads[random.index(n)] = stray,
    }
    workloads
}

/// Nothing wrong, one thing, or two.
fn bad(check: &mut Check, random: &mut Random, count: u64) {
    for _ in 0..count {
        let sound = sites::any(random, 12);
        let n = sound.vertices();
        let mut question = Question::new(sound.clone(), 1 + random.index(n.min(4)) as u32, some_options(random));
        if random.once_in(2) {
            question.workloads = some_workloads(random, n);
        }
        let (mut owners_more, mut work_more) = (random.below(3) as i64, random.below(3) as i64);
        for _ in 0..random.below(3) {
            match random.below(6) {
                0 => question.options = bad_options(random),
                1 => question.ranks = random.pick(&[0, n as u32 + 1, 257, u32::MAX]),
                2 => question.site = sites::damaged(random, &sound),
                3 => question.workloads = bad_workloads(random, n),
                4 => owners_more = -1 - random.below(n as u64) as i64,
                _ => work_more = -1 - random.below(40) as i64,
            }
        }
        compare_one(check, random, &question, owners_more, work_more);
    }
}

/// The path of four with every combination of what 1, 17, 2, 3, 4, 13 and 5 refuse: the first of these numbers is the answer.
fn refused_together(check: &mut Check, random: &mut Random) {
    let most = MAX_WORKLOAD;
    let workloads: [&[u32]; 9] = [
        &[1; 4],
        &[most, 1, 2, most],
        &[0, 1, 1, 1],
        &[1, 1, 1, 0],
        &[most + 1, 1, 1, 1],
        &[1, 1, 1, most + 1],
        &[1; 3],
        &[1; 5],
        &[],
    ];
    for code in 0..16 {
        let wrong = |cause: u32| code >> (cause - 1) & 1 == 1;
        let mut site = sites::path(4);
        if wrong(4) {
            site.neighbors[0] = 2;
        }
        let filed = [if wrong(3) { 33 } else { 12 }, 64, if wrong(1) { 501 } else { 500 }, 2];
        for swapping in [[8, 4], [12, 8], [1, 1], [0, 4], [13, 4], [8, 0], [8, 9]] {
            let options = Options::of(filed).with(swapping);
            for loads in workloads {
                let ranks = if wrong(2) { 5 } else { 2 };
                let question = Question::new(site.clone(), ranks, options).weighed(loads.to_vec());
                for (owners_more, work_more) in [(0, 0), (-1, 0), (0, -1), (-1, -1)] {
                    compare_one(check, random, &question, owners_more, work_more);
                }
            }
        }
    }
}

/// A long run of swaps, one in a pass.
fn forced_swaps(ranks: usize, size: usize, passes: u64) -> Question {
    Question::new(forced::swaps(ranks, size), ranks as u32, Options::of([12, u64::MAX, 0, passes]))
}

/// Sites whose growth is forced, so that moves and swaps come one in a pass, for ranks and sizes from small to large.
fn forced_runs(check: &mut Check, random: &mut Random, large: bool) {
    let mut sizes = vec![(3, 20), (5, 16), (8, 40), (4, 300), (8, 160)];
    if large {
        sizes.extend([(16, 200), (64, 256)]);
    }
    for (ranks, size) in sizes {
        for passes in [1, 2, 10, u64::MAX] {
            // one more vertex than the average is within the cap for 1 per mille of more than 1000 vertices
            let spare = if ranks * size > 1000 { 1 } else { 1000_u64.div_ceil((ranks * size - 1) as u64) };
            let options = Options::of([12, u64::MAX, spare, passes]);
            let moves = Question::new(forced::moves(ranks, size), ranks as u32, options);
            let swaps = forced_swaps(ranks, size, passes);
            let heavy = swaps.clone().weighed(vec![MAX_WORKLOAD; swaps.site.vertices()]);
            for question in [moves, swaps, heavy] {
                counted(check, random, &question);
            }
        }
    }
}

/// Fewer than two vertices for each rank, of which now and then one weighs 2, and the widest balance: a move may leave a rank
/// empty, which 9 refuses.
fn emptied(check: &mut Check, random: &mut Random, count: u64) {
    for _ in 0..count {
        let ranks = 2 + random.index(9);
        let site = sites::any(random, 2 * ranks - 1);
        let n = site.vertices();
        let options = Options {
            coarse_vertices_per_rank: 64,
            imbalance_per_mille: random.between(450, 500),
            ..some_options(random)
        };
        let mut question = Question::new(site, ranks.min(n) as u32, options);
        if random.once_in(3) {
            question.workloads[random.index(n)] = 2;
        }
        compare_one(check, random, &question, 1, 1);
    }
}

/// A random site, large now and then, with the default list length and pass factor.
pub(crate) fn some_site(random: &mut Random, i: u64) -> Question {
    let size = if i % 200 == 0 {
        1500
    } else if i % 20 == 0 {
        300
    } else {
        40
    };
    let site = sites::any(random, size);
    let ranks = 1 + random.index(site.vertices().min(if i % 20 == 0 { 64 } else { 7 })) as u32;
    Question::new(site, ranks, usual_options(random))
}

/// Sites with a lone vertex, which no file may have (request P7): drawn as the stored requests are, before their lone vertices are
/// linked up, with workloads of 1 and with others. One of ten has no link at all.
fn lone(check: &mut Check, random: &mut Random, count: u64) {
    for i in 0..count {
        let draw = if random.once_in(2) { sites::some_weighed_question } else { sites::some_question };
        let mut question = draw(random, if i % 10 == 0 { 64 } else { 20 });
        if random.once_in(10) {
            question.site = Site::new(question.site.vertices(), &[]);
        } else if question.site.lone().is_empty() {
            question.site = sites::with_lone(random, &question.site);
        }
        counted(check, random, &question);
    }
}

fn weighed(check: &mut Check, random: &mut Random, count: u64) {
    for i in 0..count {
        let mut question = some_site(random, i);
        question.workloads = some_workloads(random, question.site.vertices());
        if random.once_in(2) {
            question.options.imbalance_per_mille = random.between(100, 500);
        }
        if random.once_in(2) {
            question.options = question.options.with(some_swapping(random));
        }
        counted(check, random, &question);
    }
}

/// A site of few ranks with long borders, whose division has swaps: of points, of random links, with workloads now and then.
fn with_swaps(random: &mut Random) -> Question {
    loop {
        let ranks = 2 + random.index(3);
        let n = ranks * (10 + random.index(50));
        let site = match random.below(3) {
            0 => sites::geometric(random, n, (1 << 21) / n.isqrt() as u64),
            1 => sites::sparse(random, n, 3 * n),
            _ => sites::dense(random, n, 150),
        };
        let weighed = random.once_in(3);
        let imbalance = if weighed { random.between(100, 500) } else { random.pick(&[0, 0, 30, 200]) };
        let options = Options::of([12, random.pick(&[1, u64::MAX]), imbalance, random.pick(&[1, 1, 2])]);
        let mut question = Question::new(site, ranks as u32, options);
        if weighed {
            question.workloads = some_workloads(random, n);
        }
        if trace(&question).swapped.is_some_and(|swapped| swapped.count > 0) {
            return question;
        }
    }
}

/// Every list length and pass factor on each of these sites. A step is a division that is another than with the defaults. Each
/// length and each factor must be told by some site from the one before it.
fn every_swapping(check: &mut Check, random: &mut Random, questions: &[Question]) {
    let (mut lengths, mut factors) = ([false; MAX_LIST_LENGTH as usize - 1], [false; MAX_PASS_FACTOR as usize - 1]);
    for question in questions {
        let usual = partition(question).ok();
        let mut divide = |length, factor| {
            let options = question.options.with([length, factor]);
            let made = compare_one(check, random, &Question { options, ..question.clone() }, 1, 1);
            check.made(u64::from(made != usual));
            made
        };
        let rows: Vec<Vec<_>> = (1..=MAX_LIST_LENGTH)
            .map(|length| (1..=MAX_PASS_FACTOR).map(|factor| divide(length, factor)).collect())
            .collect();
        lengths.iter_mut().zip(rows.windows(2)).for_each(|(told, two)| *told |= two[0] != two[1]);
        for row in &rows {
            factors.iter_mut().zip(row.windows(2)).for_each(|(told, two)| *told |= two[0] != two[1]);
        }
    }
    let told = lengths.iter().chain(&factors).filter(|told| **told).count();
    check.same(0, told, lengths.len() + factors.len(), || "the lengths and factors that are told".into());
}

/// Passes about where the factor times them is 2^64 or more: a product that wraps leaves few passes of many.
fn many_passes(check: &mut Check, random: &mut Random) {
    for factor in 1..=MAX_PASS_FACTOR {
        let last = u64::MAX / factor;
        for passes in [last, last.saturating_add(1), 1 << 61, 1 << 62, 1 << 63, u64::MAX] {
            for (ranks, size) in [(3, 20), (5, 16), (3, 100)] {
                let mut question = forced_swaps(ranks, size, passes);
                question.options.swap_pass_factor = factor;
                counted(check, random, &question);
            }
        }
    }
}

/// As many vertices, entries, ranks and levels as there may be, or one more; workloads that add up to 163,840,000, or one above
/// the most; the longest lists and the greatest factor.
fn at_the_limits(check: &mut Check, random: &mut Random) {
    let (usual, many) = (Options::of([12, 64, 30, 2]), Options::of([32, 1, 500, u64::MAX]));
    let swapping = Options::of([32, u64::MAX, 0, u64::MAX]).with([MAX_LIST_LENGTH, MAX_PASS_FACTOR]);
    let full = sites::sparse(random, 16_384, 65_536);
    for (site, ranks, options) in [
        (sites::grid(128, 128), 8, usual),
        (sites::path(16_384), 256, usual),
        (sites::star(16_384), 2, usual),
        (sites::path(16_385), 2, usual),
        (sites::clique(363), 3, usual),
        (sites::bipartite(256, 256), 256, many),
        (sites::grid(128, 128), 256, swapping),
        (full.clone(), 256, swapping),
        (full.clone(), 256, usual.with(swapping.swapping())),
        (full.clone(), 2, usual.with([1, 1])),
        (full, 256, many),
        (sites::grid(20, 20), 16, many),
    ] {
        let n = site.vertices();
        let question = Question::new(site, ranks, options);
        compare_one(check, random, &question, 1, 1);
        let mut heavy = question.clone().weighed(vec![MAX_WORKLOAD; n]);
        compare_one(check, random, &heavy, 0, 0);
        heavy.workloads[n - 1] += 1;
        compare_one(check, random, &heavy, 0, 0);
        let any = (0..n).map(|_| random.between(1, MAX_WORKLOAD.into()) as u32).collect();
        compare_one(check, random, &question.weighed(any), 0, 0);
    }
    for offsets in [vec![], vec![0]] {
        let nothing = Question::new(Site { offsets, neighbors: vec![] }, 1, many);
        compare_one(check, random, &nothing, 0, 0);
    }
}

pub fn compare(report: &mut Report, seed: u64, count: u64, long: bool) {
    report.check("divisions of the sites by hand", &[0, 6, 7, 8, 9], |check| {
        for (question, _) in byhand::table() {
            compare_one(check, &mut Random::new(seed), &question, 0, 0);
        }
    });
    let (most, name) = if long { (5, "five") } else { (4, "four") };
    report.check(&format!("divisions of all graphs of up to {name} vertices"), &[0, 6, 7, 8, 9], |check| {
        let grid = grid([&[1, 2, 32], &[1, 2, 64], &[0, 30, 200, 334, 500], &[1, 2, u64::MAX]]);
        small(check, &mut Random::new(seed), most, &grid, [1; 5]);
    });
    report.check(
        &format!("divisions of all graphs of up to {name} vertices with workloads"),
        &[0, 6, 7, 8, 9],
        |check| {
            let grid = grid([&[1, 32], &[1, 64], &[0, 100, 250, 366, 500], &[1, u64::MAX]]);
            let most_of_one = [MAX_WORKLOAD, 1, 1, 1, 1];
            for workloads in [[5, 4, 3, 6, 2], [1, 2, 3, 4, 5], [1, 2, 1, 1, 2], [7; 5], most_of_one] {
                small(check, &mut Random::new(seed), most, &grid, workloads);
            }
        },
    );
    report.check(
        &format!("divisions of all graphs of up to {name} vertices, short lists and few passes"),
        &[0, 6, 7, 8, 9],
        |check| {
            let grid = grid([&[1, 32], &[1, 64], &[0, 200, 500], &[1, u64::MAX]]);
            for swapping in [[1, 1], [1, 8], [2, 1], [12, 8]] {
                let grid: Vec<_> = grid.iter().map(|options| options.with(swapping)).collect();
                small(check, &mut Random::new(seed), most, &grid, [1; 5]);
                small(check, &mut Random::new(seed), most, &grid, [5, 4, 3, 6, 2]);
            }
        },
    );
    report.check("divisions with every list length and pass factor", &[0], |check| {
        let mut random = Random::new(seed);
        let mut questions = vec![forced_swaps(3, 20, 1), forced_swaps(5, 16, 2), forced_swaps(3, 100, 1)];
        questions.extend((0..200.max(count / 100)).map(|_| with_swaps(&mut random)));
        every_swapping(check, &mut random, &questions);
    });
    report.check("divisions with more passes than 2^64", &[0], |check| many_passes(check, &mut Random::new(seed)));
    report.check("divisions with forced runs of moves and swaps", &[0], |check| {
        forced_runs(check, &mut Random::new(seed), long)
    });
    report.check("divisions that may leave a rank empty", &[0, 8, 9], |check| {
        emptied(check, &mut Random::new(seed), count / 4)
    });
    report.check("divisions of random sites", &[0, 6, 7, 8], |check| {
        let mut random = Random::new(seed);
        for i in 0..count {
            let question = some_site(&mut random, i);
            compare_one(check, &mut random, &question, 2, 5);
        }
    });
    report.check("divisions of random sites with workloads", &[0, 6, 7, 8], |check| {
        weighed(check, &mut Random::new(seed), count)
    });
    report.check("divisions of sites with a lone vertex", &[0, 6, 7, 8, 9], |check| {
        lone(check, &mut Random::new(seed), count)
    });
    let refusals = [0, 1, 2, 3, 4, 5, 13, 17];
    report.check("divisions of bad input", &refusals, |check| bad(check, &mut Random::new(seed), count));
    report.check("divisions with several things wrong", &refusals, |check| {
        refused_together(check, &mut Random::new(seed))
    });
    report.check("divisions at the limits", &[0, 2, 3, 13], |check| at_the_limits(check, &mut Random::new(seed)));
}
