//! The five stages beside the Rust's, each by itself, on levels of any weights and owners. Moves and swaps are held against the
//! oracle in force; the others, moves among two ranks, and swaps where all weights are 1 and the lists have the default length,
//! against the unchanged Rust: no request has changed them.
use crate::bridge;
use crate::bridge_stages::{Level, Rules};
use crate::levels::{self, MAX_TOTAL};
use crate::report::{Check, Report};
use reference::answers::{self, MAX_LIST_LENGTH, MAX_NEIGHBORS, MAX_RANKS, MAX_VERTICES, SWAPPING, lists_cause};
use reference::random::Random;
use reference::unchanged::stages;

const PASSES: [u64; 4] = [1, 2, 10, u64::MAX];
/// How many candidates a list has, unless a check says others.
const LISTED: u32 = SWAPPING[0] as u32;

/// What the work slice holds before a call: nothing that a stage could rest on.
fn noise(length: usize) -> Vec<u32> {
    (0..length as u32).map(|i| i.wrapping_mul(2_654_435_761) | 1).collect()
}

/// The imbalance's whole range, the ends and the usual values often.
fn some_imbalance(random: &mut Random) -> u32 {
    if random.once_in(2) { random.pick(&[0, 30, 200, 334, 499, 500]) } else { random.below(501) as u32 }
}

fn rules(level: &Level, t: u32, passes: u64) -> Rules {
    let total = level.total();
    let (floor, cap) = (bridge::minimum_load(total, level.ranks, t), bridge::load_cap(total, level.ranks, t));
    Rules { floor, cap, passes }
}

fn wide(numbers: &[u32]) -> Vec<usize> {
    numbers.iter().map(|&x| x as usize).collect()
}

// ---- one call of both

fn coarsen(check: &mut Check, level: &Level) {
    let (n, mut work) = (level.vertices(), noise(level.need()));
    let (number, counts) = level.coarsen(&mut work);
    let groups = if counts == [0; 4] { n } else { counts[0] as usize };
    let (rows, weights) = level.next_in(&work, groups);
    let rows: Vec<_> = rows.into_iter().map(wide).collect();
    let ours = (number, counts, rows, wide(weights), wide(level.map_in(&work)));

    let rust = stages::coarsen_once_cached(&level.rows(), &wide(&level.weights));
    let (groups, entries) = (rust.rows.len(), rust.rows.iter().map(Vec::len).sum());
    let counts = [groups, entries, rust.matched_pairs, rust.singleton_aggregates].map(|x| x as u64);
    let counts = if groups < n { counts } else { [0; 4] };
    check.made(counts[2]);
    check.same(0, ours, (0, counts, rust.rows, rust.weights, rust.fine_to_coarse), || format!("{level:?}"));
}

fn seeds(check: &mut Check, level: &Level) {
    let mut work = noise(level.need());
    let number = level.seeds(&mut work);
    let ours = if number == 0 { Ok(wide(level.seeds_in(&work))) } else { Err(number) };
    check.outcomes(ours, stages::farthest_seeds(&level.rows(), level.ranks), || format!("{level:?}"));
}

/// The owners that a stage left and its count; or its number.
fn refined(level: &Level, answer: (u32, u64), work: &[u32]) -> Result<(Vec<u32>, usize), u32> {
    let (number, count) = answer;
    if number == 0 { Ok((level.owners_in(work).to_vec(), count as usize)) } else { Err(number) }
}

fn growth(check: &mut Check, level: &Level, t: u32) {
    let mut work = noise(level.need());
    let answer = level.growth(rules(level, t, 0).cap, &mut work);
    let rust = stages::weighted_multisource_partition(&level.rows(), &wide(&level.weights), level.ranks, t);
    check.made(answer.1);
    check.outcomes(refined(level, answer, &work), rust, || format!("t {t}, {level:?}"));
}

/// The Rust's number of too many ranks is 7; document 01's is 2, as `from_owners` has it.
fn checked<T>(level: &Level, rust: Result<T, u32>) -> Result<T, u32> {
    rust.map_err(|number| if level.ranks as usize > level.vertices() { 2 } else { number })
}

fn moves(check: &mut Check, level: &Level, t: u32, passes: u64) -> u64 {
    let mut work = noise(level.need());
    let answer = level.moves(rules(level, t, passes), &mut work);
    let (rows, weights) = (level.rows(), wide(&level.weights));
    let rust = answers::moves(level.ranks)(&rows, &weights, level.ranks, &level.owners, t, passes as usize);
    let input = || format!("t {t}, passes {passes}, {level:?}");
    check.made(answer.1);
    check.outcomes(refined(level, answer, &work), checked(level, rust), input);
    answer.1
}

/// The Rust's swaps end with a check of the owners, which in a division cannot refuse; document 01 has none there, so it is made
/// here.
fn swaps_listed(check: &mut Check, level: &Level, t: u32, passes: u64, length: u32) -> u64 {
    let mut work = noise(level.need());
    let answer = level.swaps(rules(level, t, passes), length, &mut work);
    let ours = refined(level, answer, &work).and_then(|made| match bridge::from_owners(level.ranks, &made.0) {
        0 => Ok(made),
        number => Err(number),
    });
    let (rows, weights) = (level.rows(), wide(&level.weights));
    let expected = answers::swaps(&weights, length.into());
    let rust = expected(&rows, &weights, level.ranks, &level.owners, t, passes as usize, length as usize);
    check.made(answer.1);
    check.outcomes(ours, checked(level, rust), || format!("t {t}, passes {passes}, lists of {length}, {level:?}"));
    answer.1
}

fn swaps(check: &mut Check, level: &Level, t: u32, passes: u64) -> u64 {
    swaps_listed(check, level, t, passes, LISTED)
}

fn unit(level: &Level) -> Level {
    Level { weights: vec![1; level.vertices()], ..level.clone() }
}

/// The same with weights of 1.
fn unit_swaps(check: &mut Check, level: &Level, t: u32, passes: u64) -> u64 {
    swaps(check, &unit(level), t, passes)
}

/// Every list length, half of the time with weights of 1.
fn all_lists(check: &mut Check, random: &mut Random, level: &Level) {
    let level = if random.once_in(2) { level.clone() } else { unit(level) };
    let (t, passes) = (some_imbalance(random), random.pick(&PASSES));
    for length in 1..=MAX_LIST_LENGTH as u32 {
        swaps_listed(check, &level, t, passes, length);
    }
}

// ---- chains

/// Rank 1's path goes over vertex by vertex, one in a pass: 9 where nothing is left of it.
fn chains_of_moves(check: &mut Check) {
    for n in [2, 3, 10, 100, 500] {
        for passes in PASSES {
            let count = moves(check, &levels::chain_of_moves(n, true), 500, passes);
            let expected = passes.min(n as u64 - 1);
            check.same(0, count, expected, || format!("the moves of a chain of {n} in {passes} passes"));
            moves(check, &levels::chain_of_moves(n, false), 500, passes);
        }
    }
}

/// A list of one has nothing to swap, for the two that lead are a pair; with longer ones all pairs are mended in the end. Where no
/// partners are in the lists, all their pairs are proposed, the last of them is needed, and a pass swaps as many as a list is long.
fn chains_of_swaps(check: &mut Check) {
    for length in 1..=MAX_LIST_LENGTH as u32 {
        for n in [2, 3, 16, 17, 100, 300] {
            for passes in PASSES {
                let count = swaps_listed(check, &levels::chain_of_swaps(n, 0), 500, passes, length);
                if passes == u64::MAX {
                    let expected = if length == 1 { 0 } else { n as u64 / 2 };
                    check.same(0, count, expected, || format!("the swaps of {n} pairs, lists of {length}"));
                }
            }
        }
        let count = swaps_listed(check, &levels::chain_of_swaps(24, 12), 500, 1, length);
        check.same(0, count, length.into(), || format!("the swaps of a pass, lists of {length}"));
    }
}

// ---- levels that are refused

/// A second reading of what is refused, in its order.
fn cause(level: &Level, work: usize) -> u32 {
    let (n, m) = (level.vertices(), level.neighbors.len());
    if n > MAX_VERTICES || m > MAX_NEIGHBORS || level.ranks > MAX_RANKS || level.total() >= MAX_TOTAL {
        return 3;
    }
    if lists_cause(&level.offsets, &level.neighbors) != 0 {
        return 4;
    }
    if level.weights.len() != n || level.owners.len() != n || work < level.need() {
        return 5;
    }
    if level.owners.iter().any(|&o| o >= level.ranks) { 12 } else { 0 }
}

/// Each stage refuses it alike, and then leaves the work slice alone and writes zeros; or it is not refused.
fn spoilt(check: &mut Check, random: &mut Random) {
    let level = levels::spoilt(random);
    let need = if level.ranks > MAX_RANKS { 100 } else { level.need() };
    let lent = if random.once_in(4) { random.index(need) } else { need + random.index(3) };
    let expected = cause(&level, lent);
    let before = noise(lent);
    let mut work = before.clone();
    if expected == 0 {
        return check.same(0, level.coarsen(&mut work).0, 0, || format!("{level:?}"));
    }
    let r = Rules { floor: 0, cap: u64::MAX, passes: 1 };
    let counted = [level.growth(r.cap, &mut work), level.moves(r, &mut work), level.swaps(r, LISTED, &mut work)];
    let ours = (level.coarsen(&mut work), level.seeds(&mut work), counted, work);
    let rust = ((expected, [0; 4]), expected, [(expected, 0); 3], before);
    check.same(expected, ours, rust, || format!("{lent} work numbers, {level:?}"));
}

/// Any level, spoilt or not, with a list length out of its range: 17 comes before all else.
fn bad_length(check: &mut Check, random: &mut Random) {
    let level = if random.once_in(2) { levels::any(random, 12) } else { levels::spoilt(random) };
    let before = noise(random.index(2000));
    let mut work = before.clone();
    let length = random.pick(&[0, 13, 255, 256 + LISTED, (1 << 16) + LISTED, 1 << 31, u32::MAX]);
    let answer = level.swaps(Rules { floor: 0, cap: u64::MAX, passes: 1 }, length, &mut work);
    check.same(17, (answer, work), ((17, 0), before), || format!("lists of {length}, {level:?}"));
}

// ---- all checks

/// So many random levels: small ones most often.
fn drawn(seed: u64, count: u64, mut body: impl FnMut(&mut Random, &Level)) {
    let mut random = Random::new(seed);
    for i in 0..count {
        let size = if i % 200 == 0 {
            700
        } else if i % 20 == 0 {
            200
        } else {
            30
        };
        let level = levels::any(&mut random, size);
        body(&mut random, &level);
    }
}

fn refinements(check: &mut Check, seed: u64, count: u64, call: fn(&mut Check, &Level, u32, u64) -> u64) {
    drawn(seed, count, |random, level| {
        call(check, level, some_imbalance(random), random.pick(&PASSES));
    });
}

fn small(check: &mut Check) {
    for level in levels::small() {
        coarsen(check, &level);
        seeds(check, &level);
        for t in [0, 200, 334, 500] {
            growth(check, &level, t);
        }
    }
}

fn small_owned(
    check: &mut Check,
    levels: impl Iterator<Item = Level>,
    call: impl Fn(&mut Check, &Level, u32, u64) -> u64,
) {
    for level in levels {
        for t in [0, 334, 500] {
            for passes in [1, u64::MAX] {
                call(check, &level, t, passes);
            }
        }
    }
}

/// As many vertices, entries and ranks, and as much weight, as there may be.
fn at_the_limits(check: &mut Check, random: &mut Random) {
    for level in levels::large(random) {
        let t = some_imbalance(random);
        coarsen(check, &level);
        seeds(check, &level);
        growth(check, &level, t);
        moves(check, &level, t, u64::MAX);
        unit_swaps(check, &level, t, u64::MAX);
        for length in [1, LISTED, MAX_LIST_LENGTH as u32] {
            swaps_listed(check, &level, t, u64::MAX, length);
        }
    }
}

pub fn compare(report: &mut Report, seed: u64, count: u64) {
    report.check("coarsen_once_cached", &[], |c| drawn(seed, count, |_, level| coarsen(c, level)));
    report.check("farthest_seeds", &[0, 7], |c| drawn(seed, count, |_, level| seeds(c, level)));
    report.check("weighted_multisource_partition", &[0, 6, 7, 8], |c| {
        drawn(seed, count, |random, level| growth(c, level, some_imbalance(random)));
    });
    report.check("coarsening, seeds and growth, all small levels", &[0, 6, 7, 8], small);
    report.check("refine_by_cut", &[0, 2, 9], |c| refinements(c, seed, count, moves));
    report.check("refine_by_cut, all small levels", &[0, 2, 9], |c| small_owned(c, levels::small_owned(), moves));
    report.check("refine_by_cut, chains of moves", &[0, 9], chains_of_moves);
    report.check("refine_fine_pair_swaps", &[0, 2, 9], |c| refinements(c, seed, count, swaps));
    report.check("refine_fine_pair_swaps, weights of 1", &[0, 2, 9], |c| refinements(c, seed, count, unit_swaps));
    report.check("refine_fine_pair_swaps, all small levels", &[0, 2, 9], |c| {
        small_owned(c, levels::small_owned(), swaps);
    });
    report.check("refine_fine_pair_swaps, all small levels, weights of 1", &[0, 2, 9], |c| {
        let unit = |level: &Level| level.weights.iter().all(|&w| w <= 1);
        small_owned(c, levels::small_owned().filter(unit), unit_swaps);
    });
    report.check("refine_fine_pair_swaps, all small levels, lists of 1", &[0, 2, 9], |c| {
        small_owned(c, levels::small_owned(), |c, level, t, passes| swaps_listed(c, level, t, passes, 1));
    });
    report.check("refine_fine_pair_swaps, lists of 1 to 12", &[0, 2, 9], |c| {
        drawn(seed, count / 4, |random, level| all_lists(c, random, level));
    });
    report.check("refine_fine_pair_swaps, chains of swaps", &[0], chains_of_swaps);
    report.check("the stages at the limits", &[0], |c| at_the_limits(c, &mut Random::new(seed)));
    report.check("the stages on spoilt levels", &[0, 3, 4, 5, 12], |c| {
        let mut random = Random::new(seed);
        (0..count).for_each(|_| spoilt(c, &mut random));
    });
    report.check("refine_fine_pair_swaps, list lengths out of their range", &[17], |c| {
        let mut random = Random::new(seed);
        (0..count).for_each(|_| bad_length(c, &mut random));
    });
}
