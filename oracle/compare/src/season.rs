//! Request P11: season windows, crate visits, beside two readings of the request (reference::season).
use crate::bridge_season::{self, DAY_GUARD};
use crate::links::lists_of;
use crate::report::{Check, Report, first_of};
use crate::seasons::{self, in_turn, just_enough, season_of, with_windows};
use reference::answers::{MAX_RANKS, MAX_VERTICES};
use reference::crane::LAST_DAY;
use reference::random::Random;
use reference::season::{self, Season};

pub fn compare(report: &mut Report, seed: u64, count: u64) {
    let random = || Random::new(seed);
    report.check("season windows, by hand", &[0, 19, 20], by_hand);
    report.check("season windows, slices by hand", &[0, 2, 12, 9, 5, 19], slices_by_hand);
    report.check("season windows, 31 to 33 by hand", &[0, 19], many_by_hand);
    report.check("season windows, all small ones of one rank", &[0, 19, 20], one_rank);
    report.check("season windows, all small ones of two ranks", &[0, 2, 9, 19, 20], two_ranks);
    report.check("season windows, all small ones of three ranks", &[0, 2, 9, 19, 20], three_ranks);
    report.check("season windows, all small rising ones", &[0, 2, 9, 20], small_rising);
    report.check("season windows, all short slices", &[0, 2, 12, 9, 5, 19, 20], short_slices);
    report.check("season windows, faults together", &[0, 2, 3, 12, 9, 5, 19, 20], faults_together);
    report.check("season windows, slices of other lengths", &[0, 2, 3, 5, 19, 20], |c| lengths(c, &mut random()));
    let random_seasons = |c: &mut Check| some_seasons(c, &mut random(), 5 * count);
    report.check("season windows, random seasons", &[0, 2, 12, 9, 5, 19, 20], random_seasons);
    report.check("season windows, at the limits", &[0, 2, 3, 19, 20], |c| at_the_limits(c, &mut random()));
    report.check("season windows, days about the last", &[0, 19], |c| about_last(c, &mut random()));
    report.check("season windows, a high part anywhere", &[0, 2, 3, 12, 19], |c| high_parts(c, &mut random()));
    report.check("season windows, a stray window anywhere", &[0, 19], |c| strays(c, &mut random()));
    report.check("season windows, a day too few anywhere", &[0, 20], |c| too_few(c, &mut random()));
    report.check("season windows, the two readings", &[0, 20], |c| readings(c, &mut random(), count));
}

// ---- one season

fn shown(season: &Season) -> String {
    let Season { ranks, owners, counts, days, lent } = season;
    let [owners, counts, days] = [owners, counts, days].map(|list| first_of(list));
    format!("k {ranks}, owners {owners}, counts {counts}, days {days}, {lent} lent")
}

fn of_slices(ranks: u32, slices: [&[u32]; 3], lent: usize) -> Season {
    let [owners, counts, days] = slices.map(<[u32]>::to_vec);
    Season { ranks, owners, counts, days, lent }
}

/// One season and its answer: what is lent for the days holds them, and beyond them or after a refusal what stood there before.
fn answered(check: &mut Check, season: &Season, answer: Result<Vec<u32>, u32>) {
    let mut held = vec![DAY_GUARD; season.lent];
    let number = match answer {
        Ok(days) => {
            held[..days.len()].copy_from_slice(&days);
            0
        }
        Err(number) => number,
    };
    check.same(number, bridge_season::season_days_guarded(season), (number, held), || shown(season));
}

/// One season and the answer of the second reading.
fn visits(check: &mut Check, season: &Season) {
    answered(check, season, season::season_days(season));
}

/// A season whose answer is seen at once: both sides must give it.
fn seen(check: &mut Check, season: &Season, answer: Result<&[u32], u32>) {
    let answer = answer.map(|days| days.to_vec());
    answered(check, season, answer.clone());
    check.outcomes(season::season_days(season), answer, || shown(season));
}

// ---- by hand

/// Owners, counts, days, and the answer; there are as many ranks as counts.
type ByHand<'a> = (&'a [u32], &'a [u32], &'a [u32], Result<&'a [u32], u32>);

/// Windows that are good. They may touch, and those of a later rank may begin earlier.
const GOOD: [ByHand; 20] = [
    (&[0], &[1], &[0, 1], Ok(&[0])),
    (&[0, 0, 0], &[1], &[5, 8], Ok(&[5, 6, 7])),
    (&[0, 0, 0], &[1], &[5, 7], Err(20)),
    (&[0, 0], &[1], &[5, 9], Ok(&[5, 6])),
    (&[0, 0, 0, 0], &[2], &[2, 4, 4, 6], Ok(&[2, 3, 4, 5])),
    (&[0, 0, 0, 0, 0], &[2], &[2, 4, 4, 6], Err(20)),
    (&[0, 0, 0, 0], &[2], &[2, 4, 10, 12], Ok(&[2, 3, 10, 11])),
    (&[0, 0, 0], &[3], &[3, 4, 5, 6, 6, 7], Ok(&[3, 5, 6])),
    (&[0, 0, 0], &[2], &[3, 4, 9, 20], Ok(&[3, 9, 10])),
    (&[0], &[1], &[0, 3_660], Ok(&[0])),
    (&[0], &[1], &[3_659, 3_660], Ok(&[3_659])),
    (&[0, 0], &[2], &[0, 1, 3_659, 3_660], Ok(&[0, 3_659])),
    (&[0, 1, 1, 0, 1], &[1, 2], &[10, 12, 0, 2, 5, 6], Ok(&[10, 0, 1, 11, 5])),
    (&[0, 1, 0, 1], &[1, 1], &[0, 2, 0, 2], Ok(&[0, 0, 1, 1])),
    (&[2, 1, 0], &[1, 1, 1], &[8, 9, 4, 5, 0, 1], Ok(&[0, 4, 8])),
    (&[0, 1, 1], &[1, 1], &[0, 9, 0, 1], Err(20)),
    (&[0, 0, 1], &[1, 1], &[0, 1, 0, 9], Err(20)),
    (&[0], &[0], &[], Err(20)),
    (&[0, 1], &[0, 1], &[3, 4], Err(20)),
    (&[0, 1], &[1, 0], &[3, 4], Err(20)),
];

/// Windows that break a rule: past the last day, empty, end before first, overlapping, falling; one of them beside a rank that has
/// too few days.
const BAD: [ByHand; 18] = [
    (&[0], &[1], &[3_659, 3_661], Err(19)),
    (&[0], &[1], &[3_660, 3_661], Err(19)),
    (&[0], &[1], &[3_660, 3_660], Err(19)),
    (&[0], &[2], &[0, 1, 3_659, 3_661], Err(19)),
    (&[0], &[1], &[5, 5], Err(19)),
    (&[0], &[1], &[0, 0], Err(19)),
    (&[0], &[1], &[6, 5], Err(19)),
    (&[0], &[2], &[2, 4, 6, 6], Err(19)),
    (&[0], &[2], &[2, 4, 9, 8], Err(19)),
    (&[0], &[2], &[2, 2, 2, 4], Err(19)),
    (&[0], &[2], &[2, 5, 4, 6], Err(19)),
    (&[0], &[2], &[2, 4, 2, 4], Err(19)),
    (&[0], &[2], &[4, 6, 2, 4], Err(19)),
    (&[0], &[3], &[1, 2, 8, 9, 3, 4], Err(19)),
    (&[0, 1], &[1, 2], &[0, 1, 5, 7, 6, 8], Err(19)),
    (&[0, 1], &[2, 1], &[5, 7, 6, 8, 0, 1], Err(19)),
    (&[0, 1], &[0, 1], &[4, 4], Err(19)),
    (&[0, 0, 1], &[1, 1], &[0, 1, 3, 2], Err(19)),
];

/// Counts that the days are too many or too few for, some of them equal to the days if a high part of the sum is dropped.
const SUMS: [ByHand; 15] = [
    (&[0], &[1], &[], Err(19)),
    (&[0], &[0], &[3, 4], Err(19)),
    (&[0], &[1], &[3], Err(19)),
    (&[0], &[1], &[3, 4, 5], Err(19)),
    (&[0], &[1], &[3, 4, 5, 6], Err(19)),
    (&[0], &[2], &[3, 4], Err(19)),
    (&[0], &[257], &[3, 4], Err(19)),
    (&[0], &[65_537], &[3, 4], Err(19)),
    (&[0], &[1 << 31], &[], Err(19)),
    (&[0], &[(1 << 31) + 1], &[3, 4], Err(19)),
    (&[0, 1], &[1 << 31, 1 << 31], &[], Err(19)),
    (&[0, 1], &[1 << 31, (1 << 31) + 1], &[3, 4], Err(19)),
    (&[0, 1], &[u32::MAX, 1], &[], Err(19)),
    (&[0, 1], &[u32::MAX, 3], &[3, 4, 5, 6], Err(19)),
    (&[0, 1, 2, 3], &[1 << 30, 1 << 30, 1 << 30, 1 << 30], &[], Err(19)),
];

fn by_hand(check: &mut Check) {
    for (owners, counts, days, answer) in [&GOOD[..], &BAD, &SUMS].concat() {
        seen(check, &of_slices(counts.len() as u32, [owners, counts, days], owners.len()), answer);
    }
}

/// Ranks, owners, counts, days, how many numbers are lent, and the answer.
type Lent<'a> = (u32, &'a [u32], &'a [u32], &'a [u32], usize, Result<&'a [u32], u32>);

/// Slices of any length, by themselves and beside the fault that is told after theirs.
fn slices_by_hand(check: &mut Check) {
    let seasons: [Lent; 21] = [
        (0, &[], &[], &[], 0, Err(2)),
        (0, &[0], &[], &[], 1, Err(2)),
        (1, &[], &[1], &[3, 4], 0, Err(2)),
        (2, &[0], &[1, 1], &[3, 4, 3, 4], 1, Err(2)),
        (u32::MAX, &[0], &[1], &[3, 4], 1, Err(2)),
        (2, &[2], &[1, 1], &[3, 4, 3, 4], 1, Err(2)),
        (1, &[1], &[1], &[3, 4], 1, Err(12)),
        (2, &[0, 2], &[1, 1], &[3, 4, 3, 4], 2, Err(12)),
        (2, &[0, 0], &[1, 1], &[3, 5, 3, 5], 2, Err(9)),
        (2, &[1, 1], &[1, 1], &[3, 5, 3, 5], 1, Err(9)),
        (1, &[0, 0], &[1], &[3, 5], 1, Err(5)),
        (1, &[0, 0], &[1], &[3, 5], 0, Err(5)),
        (1, &[0, 0], &[2], &[3, 5], 1, Err(5)),
        (1, &[0, 0], &[1], &[3, 4], 1, Err(5)),
        (1, &[0, 0], &[1], &[3, 5], 2, Ok(&[3, 4])),
        (1, &[0, 0], &[1], &[3, 5], 7, Ok(&[3, 4])),
        (1, &[0], &[], &[], 1, Err(19)),
        (1, &[0], &[], &[3, 4], 1, Err(19)),
        (1, &[0], &[1, 0], &[3, 4], 1, Err(19)),
        (1, &[0], &[1, 1], &[3, 4, 5, 6], 1, Err(19)),
        (2, &[0, 1], &[1], &[3, 4], 2, Err(19)),
    ];
    for (ranks, owners, counts, days, lent, answer) in seasons {
        seen(check, &of_slices(ranks, [owners, counts, days], lent), answer);
    }
}

/// Windows of one day, each so many days after the one before it: 1 is a touch.
fn one_day_each(windows: u32, apart: u32) -> Vec<u32> {
    (0..windows).flat_map(|i| [apart * i, apart * i + 1]).collect()
}

/// 31, 32 and 33 windows of one day for one of three ranks, with a vertex for each.
fn many_by_hand(check: &mut Check) {
    for (count, rank, apart) in (31..=33).flat_map(|c| (0..9).map(move |i| (c, i % 3, 1 + i / 3))) {
        let mut windows = vec![vec![7, 8]; 3];
        windows[rank as usize] = one_day_each(count, apart);
        let others = (0..3).filter(|&other| other != rank);
        let owners: Vec<u32> = others.chain((0..count).map(|_| rank)).collect();
        let days: Vec<u32> = [7, 7].into_iter().chain((0..count).map(|i| apart * i)).collect();
        seen(check, &Season::new(owners, &windows), if count > 32 { Err(19) } else { Ok(&days) });
    }
}

// ---- all small ones

/// Up to three windows of the first days, or about the last ones, with all counts of up to three and up to four vertices.
fn one_rank(check: &mut Check) {
    for from in [[0, 1, 2, 3, 5], [3_657, 3_658, 3_659, 3_660, 3_661]] {
        lists_of(6, &from, |days| {
            for count in 0..=3 {
                let most = if 2 * count as usize == days.len() { 4 } else { 1 };
                for n in 1..=most {
                    visits(check, &of_slices(1, [&[0; 4][..n], &[count], days], n));
                }
            }
        });
    }
}

/// The counts of so many ranks, each up to `most`, and days out of `from` for them: all there are.
fn windows_of(ranks: usize, most: u32, from: &[u32], mut each: impl FnMut(&[u32], &[u32])) {
    let tried: Vec<u32> = (0..=most).collect();
    lists_of(ranks, &tried, |counts| {
        let length = 2 * counts.iter().sum::<u32>() as usize;
        if counts.len() == ranks {
            lists_of(length, from, |days| {
                if days.len() == length {
                    each(counts, days);
                }
            });
        }
    });
}

/// All windows of `windows_of`, with each of some lists of owners.
fn all_small(check: &mut Check, ranks: u32, most: u32, from: &[u32], owners: &[Vec<u32>]) {
    windows_of(ranks as usize, most, from, |counts, days| {
        for owners in owners {
            visits(check, &of_slices(ranks, [owners, counts, days], owners.len()));
        }
    });
}

/// All lists of up to so many owners out of `from`.
fn owners_of(most: usize, from: &[u32]) -> Vec<Vec<u32>> {
    let mut lists = Vec::new();
    lists_of(most, from, |owners| lists.push(owners.to_vec()));
    lists
}

/// Up to two windows each of three days, with all owners of up to three vertices; and of four days, with two lists of owners.
fn two_ranks(check: &mut Check) {
    all_small(check, 2, 2, &[0, 1, 2], &owners_of(3, &[0, 1]));
    all_small(check, 2, 2, &[0, 1, 2, 3], &[vec![0, 1], vec![1, 0, 0, 1]]);
}

/// At most one window each of three days, with all owners of up to four vertices.
fn three_ranks(check: &mut Check) {
    all_small(check, 3, 1, &[0, 1, 2], &owners_of(4, &[0, 1, 2]));
}

/// One to so many windows, each up to `apart` days after the one before it ended, and up to `long` days long: all there are.
fn rising_of(most: usize, apart: u32, long: u32) -> Vec<Vec<u32>> {
    let mut all = vec![vec![]];
    let mut longest = 0;
    for _ in 0..most {
        let shorter = longest..all.len();
        longest = all.len();
        for i in shorter {
            for (gap, length) in (0..=apart).flat_map(|gap| (1..=long).map(move |length| (gap, length))) {
                let first = all[i].last().unwrap_or(&0) + gap;
                all.push([&all[i][..], &[first, first + length]].concat());
            }
        }
    }
    all.split_off(1)
}

/// Of one rank, up to four windows of one to three days, which touch or are up to two days apart, with every number of vertices up
/// to one too many. Of two ranks, up to two windows of one or two days, with all owners of up to six vertices.
fn small_rising(check: &mut Check) {
    for days in rising_of(4, 2, 3) {
        let open: u32 = days.as_chunks::<2>().0.iter().map(|[first, end]| end - first).sum();
        for n in 1..=open as usize + 1 {
            visits(check, &Season::new(vec![0; n], &[days.clone()]));
        }
    }
    let (windows, owners) = (rising_of(2, 1, 2), owners_of(6, &[0, 1]));
    for (a, b) in windows.iter().flat_map(|a| windows.iter().map(move |b| (a, b))) {
        for owners in &owners {
            visits(check, &Season::new(owners.clone(), &[a.clone(), b.clone()]));
        }
    }
}

/// All owners and counts of up to three numbers for up to three ranks, all lengths of days, which are good wherever they are cut,
/// and all of up to four numbers lent.
fn short_slices(check: &mut Check) {
    let days = [0, 1, 1, 2, 4, 6, 7, 8];
    let lengths: Vec<_> = (0..=days.len()).flat_map(|length| (0..=4).map(move |lent| (length, lent))).collect();
    for ranks in [0, 1, 2, 3, u32::MAX] {
        for owners in owners_of(3, &[0, 1]) {
            lists_of(3, &[0, 1, 2], |counts| {
                for &(length, lent) in &lengths {
                    visits(check, &of_slices(ranks, [&owners, counts, &days[..length]], lent));
                }
            });
        }
    }
}

// ---- slices of other lengths and faults together

/// The order in which faults are told is 2, 3, 12, 9, 5, 19, 20.
fn faults_together(check: &mut Check) {
    seasons::faults_together(|season| visits(check, season));
}

/// About so many, some far fewer or far more, and some that are right again if a high part is dropped.
pub fn about(length: usize) -> Vec<usize> {
    let low = (0..=3).chain([length / 2]);
    let near = length.saturating_sub(3)..=length + 3;
    let parts = [1 << 8, 1 << 16].into_iter().flat_map(|part| [part, part + length - 1, part + length]);
    low.chain(near).chain([2 * length]).chain(parts).collect()
}

/// The days that go with the counts: cut, or with windows added.
fn fitted(mut season: Season) -> Season {
    let length = 2 * season.counts.iter().sum::<u32>() as usize;
    season.days = season.days.into_iter().chain([0, 1].into_iter().cycle()).take(length).collect();
    season
}

/// Each of the four slices by itself too short or too long; fewer or more owners also with as many numbers lent, and counts also
/// with the days that go with them.
fn lengths(check: &mut Check, random: &mut Random) {
    for (n, ranks) in [(1, 1), (3, 2), (5, 5), (12, 5), (90, 40), (600, 256), (MAX_VERTICES, 8)] {
        let sound = just_enough(random, n, ranks);
        visits(check, &sound);
        for length in about(n) {
            visits(check, &Season { lent: length, ..sound.clone() });
            let mut owners = sound.owners.clone();
            owners.resize(length, ranks - 1);
            visits(check, &Season { owners: owners.clone(), ..sound.clone() });
            visits(check, &Season { owners, lent: length, ..sound.clone() });
        }
        for (length, with) in about(ranks as usize).into_iter().flat_map(|length| [0, 1].map(|with| (length, with))) {
            let mut counts = sound.counts.clone();
            counts.resize(length, with);
            let season = Season { counts, ..sound.clone() };
            visits(check, &season);
            visits(check, &fitted(season));
        }
        for length in about(sound.days.len()) {
            let days = sound.days.iter().copied().chain([0, 1].into_iter().cycle()).take(length).collect();
            visits(check, &Season { days, ..sound.clone() });
        }
    }
}

// ---- random seasons

/// One of eight with a number or a length changed.
fn some_seasons(check: &mut Check, random: &mut Random, count: u64) {
    for i in 0..count {
        let season = seasons::any(random, i, MAX_VERTICES);
        let season = if random.once_in(8) { seasons::damaged(random, season) } else { season };
        visits(check, &season);
    }
}

// ---- the limits

/// Vertices, ranks and windows about the most; as many vertices as so many ranks have days, or one more; and numbers of vertices
/// that are good again if a high part is dropped.
fn about_most() -> Vec<(usize, u32, usize)> {
    let mut sizes = Vec::new();
    for n in [16_383, 16_384, 16_385, 1 << 15, 1 << 16, (1 << 16) + 300] {
        sizes.extend([4, 5, 6, 40, 255, 256, 257, 512].map(|ranks| (n, ranks)));
    }
    for ranks in [1, 2, 255, 256, 257, 258] {
        let n = ranks as usize;
        sizes.extend([n - 1, n, n + 1, 3 * n].map(|n| (n, ranks)));
    }
    for ranks in 1..=4 {
        let most = (LAST_DAY * ranks) as usize;
        sizes.extend([most - 1, most, most + 1].map(|n| (n, ranks)));
    }
    sizes.into_iter().flat_map(|(n, ranks)| [1, 2, 31, 32, 33].map(|count| (n, ranks, count))).collect()
}

/// Three seasons of each of these sizes; and at each of 256 ranks with 32 windows one more, which touches the last.
fn at_the_limits(check: &mut Check, random: &mut Random) {
    for (n, ranks, count) in about_most() {
        for _ in 0..3 {
            visits(check, &with_windows(random, n, ranks, count));
        }
    }
    let sound = with_windows(random, 512, MAX_RANKS, 32);
    for rank in 0..MAX_RANKS as usize {
        let mut season = sound.clone();
        season.counts[rank] += 1;
        let after = 64 * (rank + 1);
        let end = season.days[after - 1];
        season.days.splice(after..after, [end, end + 1]);
        visits(check, &season);
    }
}

/// A last window that begins and ends about the last day, of a rank among some.
fn about_last(check: &mut Check, random: &mut Random) {
    for (ranks, count) in [1, 2, 3, 40].into_iter().flat_map(|ranks| [1, 2, 3, 32].map(|count| (ranks, count))) {
        let owners = in_turn((count * ranks) as usize, ranks);
        let sound = vec![one_day_each(count, 2); ranks as usize];
        let rank = random.pick(&[0, ranks - 1, ranks / 2]) as usize;
        for (first, end) in (3_656..=3_663).flat_map(|first| (3_656..=3_663).map(move |end| (first, end))) {
            let mut windows = sound.clone();
            windows[rank].truncate(2 * count as usize - 2);
            windows[rank].extend([first, end]);
            visits(check, &Season::new(owners.clone(), &windows));
        }
    }
}

// ---- every place

/// Numbers with a high part more, as if it were dropped: the number of ranks, each owner, count and day, and all of a list.
fn high_parts(check: &mut Check, random: &mut Random) {
    let lists: [fn(&mut Season) -> &mut Vec<u32>; 3] = [|s| &mut s.owners, |s| &mut s.counts, |s| &mut s.days];
    for (n, ranks) in [(1, 1), (4, 2), (40, 4), (300, 40), (600, 256)] {
        let sound = just_enough(random, n, ranks);
        for part in [8, 9, 12, 16, 24, 30, 31].map(|bit| 1 << bit) {
            visits(check, &Season { ranks: ranks + part, ..sound.clone() });
            for list in lists {
                let mut all = sound.clone();
                list(&mut all).iter_mut().for_each(|number| *number += part);
                visits(check, &all);
                for at in 0..list(&mut all).len() {
                    let mut one = sound.clone();
                    list(&mut one)[at] += part;
                    visits(check, &one);
                }
            }
        }
    }
}

/// Each window of 256 ranks with 32 each as one without days, at its first or its end day, as one that ends before it begins, as
/// one past the last day, and as one that begins a day before the end of the window before it, which only a rank's first one may.
fn strays(check: &mut Check, random: &mut Random) {
    let sound = with_windows(random, 4_096, MAX_RANKS, 32);
    visits(check, &sound);
    for at in (0..sound.days.len()).step_by(2) {
        let (first, end) = (sound.days[at], sound.days[at + 1]);
        let before = sound.days[at.saturating_sub(1)].saturating_sub(1);
        for window in
            [[first, first], [end, end], [end, first], [first, LAST_DAY + 1], [first, u32::MAX], [before, end]]
        {
            let mut season = sound.clone();
            season.days[at..at + 2].copy_from_slice(&window);
            visits(check, &season);
        }
    }
}

/// Each rank in turn with a day too few or with just enough, and all others with just enough or with days to spare.
fn too_few(check: &mut Check, random: &mut Random) {
    for (n, ranks) in [(1, 1), (7, 1), (8, 2), (9, 3), (200, 40), (256, 256), (1_000, 256), (MAX_VERTICES, 6)] {
        for (rank, more) in (0..ranks).flat_map(|rank| [0, 1, 30].map(|more| (rank, more))) {
            for fewer in [0, 1] {
                let open = |other, owned| if other == rank { owned - fewer } else { owned + more };
                visits(check, &season_of(random, in_turn(n, ranks), ranks, open));
            }
        }
    }
}

// ---- the readings

/// The reading of all vertices at once beside the plain one, on random seasons and on large ones.
fn readings(check: &mut Check, random: &mut Random, count: u64) {
    let mut both = |season: &Season| {
        let windows = season::windows(season).expect("good windows");
        let plain = season::plain(&season.owners, &windows);
        check.outcomes(season::in_turn(&season.owners, &windows), plain, || shown(season));
    };
    for i in 0..count {
        both(&seasons::any(random, i, 1_000));
    }
    for (ranks, count) in [(4, 32), (5, 1), (5, 32), (256, 32)] {
        both(&with_windows(random, MAX_VERTICES, ranks, count));
    }
}
