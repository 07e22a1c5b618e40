//! Seasons of many shapes for request P11, good and damaged: windows that touch, that are a day apart or anywhere, of one day and
//! long ones; ranks with just enough open days, with more or with too few; and seasons with several faults at once.
use crate::links::some_owners;
use reference::answers::{MAX_RANKS, MAX_VERTICES};
use reference::crane::LAST_DAY;
use reference::random::Random;
use reference::season::{MAX_WINDOWS, Season};

// ---- windows

/// A number as a sum of so many, some of which may be 0: all of it in the last one or in the first one, or drawn.
fn shares(random: &mut Random, whole: u32, count: usize) -> Vec<u32> {
    let mut sums: Vec<u32> = match random.below(5) {
        0 => vec![0; count - 1],
        1 => vec![whole; count - 1],
        _ => (1..count).map(|_| random.between(0, whole.into()) as u32).collect(),
    };
    sums.sort_unstable();
    let before = [0].into_iter().chain(sums.clone());
    sums.iter().chain([&whole]).zip(before).map(|(sum, before)| sum - before).collect()
}

/// The closed days before each window, of so many in all: the windows touch, or are a day apart, or lie anywhere.
fn gaps(random: &mut Random, closed: u32, count: usize) -> Vec<u32> {
    let apart = match random.below(3) {
        0 => 0,
        1 => 1.min(closed / count as u32),
        _ => return shares(random, closed, count + 1),
    };
    let left = closed - apart * (count as u32 - 1);
    let any = random.between(0, left.into()) as u32;
    let mut gaps = vec![apart; count];
    gaps[0] = random.pick(&[0, left, any, any]);
    gaps
}

/// So many windows with so many open days in all, first and end days in turn.
fn some_windows(random: &mut Random, open: u32, count: usize) -> Vec<u32> {
    if count == 0 {
        return Vec::new();
    }
    let longer = shares(random, open - count as u32, count);
    let gaps = gaps(random, LAST_DAY - open, count);
    let mut day = 0;
    let window = |(longer, gap)| {
        let first = day + gap;
        day = first + 1 + longer;
        [first, day]
    };
    longer.into_iter().zip(gaps).flat_map(window).collect()
}

/// How many windows so many open days are in: one, as many as there may be, or any number.
fn some_count(random: &mut Random, open: u32) -> usize {
    let any = random.between(1, MAX_WINDOWS.into()) as u32;
    random.pick(&[1, MAX_WINDOWS, any]).min(open) as usize
}

// ---- owners

/// An owner for each of n vertices: the ranks in turn.
pub fn in_turn(n: usize, ranks: u32) -> Vec<u32> {
    (0..n as u32).map(|v| v % ranks).collect()
}

/// Owners in turn, drawn, rank after rank, or most of them the first or the last rank's.
pub fn drawn_owners(random: &mut Random, n: usize, ranks: u32) -> Vec<u32> {
    let mut owners = some_owners(random, n, ranks, 0);
    match random.below(4) {
        0 => owners = in_turn(n, ranks),
        1 => owners.sort_unstable(),
        2 => {
            owners.sort_unstable();
            owners.dedup();
            owners.resize(n, random.pick(&[0, ranks - 1]));
        }
        _ => {}
    }
    owners
}

/// How many vertices each rank has.
fn owned(ranks: u32, owners: &[u32]) -> Vec<u32> {
    let mut owned = vec![0; ranks as usize];
    owners.iter().for_each(|&owner| owned[owner as usize] += 1);
    owned
}

// ---- seasons

/// A season of these owners, with as many open days for each rank as `open` makes of the rank and its number of vertices, but not
/// more than there are.
pub fn season_of(random: &mut Random, owners: Vec<u32>, ranks: u32, open: impl Fn(u32, u32) -> u32) -> Season {
    let mut windows = Vec::new();
    for (rank, owned) in (0..).zip(owned(ranks, &owners)) {
        let open = open(rank, owned).min(LAST_DAY);
        let count = some_count(random, open);
        windows.push(some_windows(random, open, count));
    }
    Season::new(owners, &windows)
}

/// Ranks in turn, with just enough open days.
pub fn just_enough(random: &mut Random, n: usize, ranks: u32) -> Season {
    season_of(random, in_turn(n, ranks), ranks, |_, owned| owned)
}

/// The same with so many windows for each rank, and at least a day in each.
pub fn with_windows(random: &mut Random, n: usize, ranks: u32, count: usize) -> Season {
    let owners = in_turn(n, ranks);
    let windows = |owned: u32| some_windows(random, owned.clamp(count as u32, LAST_DAY), count);
    let windows: Vec<Vec<u32>> = owned(ranks, &owners).into_iter().map(windows).collect();
    Season::new(owners, &windows)
}

/// A season of any shape, of up to `long` vertices now and then: each rank has just enough open days, or some more, but now and
/// then one rank has too few. Sometimes more is lent than need be.
pub fn any(random: &mut Random, i: u64, long: usize) -> Season {
    let (most, most_ranks) = if i % 200 == 0 {
        (long, MAX_RANKS)
    } else if i % 20 == 0 {
        (400, MAX_RANKS)
    } else {
        (40, 8)
    };
    let n = 1 + random.index(most);
    let ranks = 1 + random.below(u64::from(most_ranks).min(n as u64)) as u32;
    let owners = drawn_owners(random, n, ranks);
    let (more, fewer) = (random.pick(&[0, 0, 1, 2, 100]), random.pick(&[1, 1, 2, 40]));
    let some = random.below(ranks.into()) as u32;
    let short = random.once_in(4).then(|| random.pick(&[0, ranks - 1, some]));
    let open = |rank, owned: u32| if short == Some(rank) { owned.saturating_sub(fewer) } else { owned + more };
    let mut season = season_of(random, owners, ranks, open);
    season.lent += random.pick(&[0, 0, 0, 1, 20]);
    season
}

// ---- damage

/// An owner, a count, a day or the number of ranks changed: by one, to one about an end, to one far away, or by a high part.
fn changed(random: &mut Random, season: &mut Season) {
    let Season { ranks, owners, counts, days, .. } = season;
    let some_day = random.between(0, LAST_DAY.into()) as u32;
    let (list, others) = match random.below(5) {
        0 => (owners, [*ranks, *ranks - 1]),
        1 => (counts, [0, MAX_WINDOWS + 1]),
        2 => (days, [0, LAST_DAY + 1]),
        3 => (days, [some_day, some_day]),
        _ => {
            *ranks = random.pick(&[0, *ranks - 1, *ranks + 1, *ranks + 256, MAX_RANKS + 1, u32::MAX]);
            return;
        }
    };
    let part = random.pick(&[1 << 8, 1 << 12, 1 << 16, 1 << 31]);
    let at = random.index(list.len());
    if let Some(number) = list.get_mut(at) {
        let near = [number.wrapping_sub(1), number.wrapping_add(1), number.wrapping_add(part), u32::MAX];
        *number = if random.once_in(2) { random.pick(&near) } else { random.pick(&others) };
    }
}

/// One of the four slices shorter or longer; a longer one repeats its last number.
fn resized(random: &mut Random, season: &mut Season) {
    let (by, longer) = (random.pick(&[1, 1, 2, 3, 40]), random.once_in(2));
    let new = |length: usize| if longer { length + by } else { length.saturating_sub(by) };
    let list = match random.below(4) {
        0 => &mut season.owners,
        1 => &mut season.counts,
        2 => &mut season.days,
        _ => {
            season.lent = new(season.lent);
            return;
        }
    };
    let last = list.last().copied().unwrap_or(0);
    list.resize(new(list.len()), last);
}

/// With a number or a length changed.
pub fn damaged(random: &mut Random, mut season: Season) -> Season {
    let damage = if random.once_in(3) { resized } else { changed };
    damage(random, &mut season);
    season
}

// ---- faults together

/// One way to break a season.
type Fault = fn(&mut Season);

/// 16,385 owners; 257 ranks, with a window each.
const TOO_MANY: [Fault; 2] = [
    |s| s.owners = s.owners.iter().copied().cycle().take(MAX_VERTICES + 1).collect(),
    |s| {
        for _ in s.ranks..=MAX_RANKS {
            s.counts.push(1);
            s.days.extend([0, 300]);
        }
        s.ranks = MAX_RANKS + 1;
    },
];

/// No ranks, 2^32 - 1, more than vertices, and no vertices.
const RANK_COUNT: [Fault; 4] =
    [|s| s.ranks = 0, |s| s.ranks = u32::MAX, |s| s.owners.truncate(s.ranks as usize - 1), |s| s.owners.clear()];

/// A stray owner of the first or the last vertex, or one that is good again if its high half is dropped.
const STRAY_OWNER: [Fault; 3] = [
    |s| s.owners.iter_mut().take(1).for_each(|owner| *owner = s.ranks),
    |s| s.owners.iter_mut().rev().take(1).for_each(|owner| *owner = u32::MAX),
    |s| s.owners.iter_mut().skip(1).take(1).for_each(|owner| *owner += 1 << 16),
];

/// All vertices of one rank are given to another.
pub fn emptied(owners: &mut [u32], rank: u32, other: u32) {
    owners.iter_mut().filter(|owner| **owner == rank).for_each(|owner| *owner = other);
}

/// The first or the last of four ranks has no vertex.
const EMPTY_RANK: [Fault; 2] = [|s| emptied(&mut s.owners, 0, 1), |s| emptied(&mut s.owners, 3, 0)];

/// Too few numbers lent.
const TOO_SHORT: [Fault; 3] =
    [|s| s.lent = s.owners.len().saturating_sub(1), |s| s.lent = s.owners.len() / 2, |s| s.lent = 0];

/// The first or the last rank has a day too few, or the first one has none.
const TOO_FEW: [Fault; 3] = [
    |s| s.days[1] -= 1,
    |s| *s.days.last_mut().unwrap() -= 1,
    |s| {
        s.days.drain(..2 * s.counts[0] as usize);
        s.counts[0] = 0;
    },
];

/// Counts or days of another length, and bad windows of the first or the last rank.
const BAD_WINDOWS: [Fault; 18] = [
    |s| s.counts.truncate(3),
    |s| s.counts.push(0),
    |s| s.counts.clear(),
    |s| s.counts[0] += 1,
    |s| s.counts[3] -= 1,
    |s| s.counts[0] = 33,
    |s| s.counts[1] += 1 << 31,
    |s| s.days.truncate(s.days.len() - 1),
    |s| s.days.push(3_660),
    |s| s.days.extend([3_659, 3_660]),
    |s| s.days.clear(),
    |s| s.days[1] = s.days[0],
    |s| s.days.swap(0, 1),
    |s| s.days[2] = s.days[1] - 1,
    |s| *s.days.last_mut().unwrap() = 3_661,
    |s| *s.days.last_mut().unwrap() = s.days[s.days.len() - 2],
    |s| {
        let last = s.days.len() - 2;
        s.days[last] = s.days[last - 1] - 1;
    },
    |s| s.days.fill(u32::MAX),
];

/// Each of these by itself, and with each of the faults.
pub fn with<T: Clone>(whole: Vec<T>, faults: &[fn(&mut T)]) -> Vec<T> {
    let none: fn(&mut T) = |_| ();
    let broken = |one: &T, fault: &fn(&mut T)| {
        let mut one = one.clone();
        fault(&mut one);
        one
    };
    let all = [&[none], faults].concat();
    whole.iter().flat_map(|one| all.iter().map(move |fault| broken(one, fault))).collect()
}

/// Every combination of faults, one of a kind at most. The season without one has 300 vertices and four ranks with just enough days.
pub fn faults_together(mut each: impl FnMut(&Season)) {
    let mut seasons = vec![Season::new(in_turn(300, 4), &vec![vec![0, 40, 50, 80, 80, 85]; 4])];
    for faults in [&TOO_MANY[..], &RANK_COUNT, &STRAY_OWNER, &EMPTY_RANK, &TOO_FEW] {
        seasons = with(seasons, faults);
    }
    for mut season in seasons {
        season.lent = season.owners.len();
        with(with(vec![season], &TOO_SHORT), &BAD_WINDOWS).iter().for_each(&mut each);
    }
}
