//! Request P12: crane weeks, crate visits, beside two readings of the request (reference::crane).
use crate::bridge_season;
use crate::links::lists_of;
use crate::report::{Check, Report};
use reference::crane::{self, LAST_DAY, MAX_BLOCK, MAX_VISITS};
use reference::random::Random;

pub fn compare(report: &mut Report, seed: u64, count: u64) {
    let random = || Random::new(seed);
    report.check("crane weeks, by hand", &[0, 21], by_hand);
    report.check("crane weeks, all small lists", &[0, 21], small_lists);
    report.check("crane weeks, all small rising lists", &[0], small_rising);
    report.check("crane weeks, every length", &[0, 21], |c| every_length(c, &mut random()));
    report.check("crane weeks, random lists", &[0, 21], |c| some_lists(c, &mut random(), 5 * count));
    report.check("crane weeks, lengths about the most", &[0, 21], |c| about_most(c, &mut random()));
    report.check("crane weeks, blocks about the longest", &[0, 21], |c| about_longest(c, &mut random()));
    report.check("crane weeks, days about the last", &[0, 21], |c| about_last(c, &mut random()));
    report.check("crane weeks, a stray day anywhere", &[0, 21], |c| strays(c, &mut random()));
    report.check("crane weeks, a fall anywhere", &[0, 21], |c| falls(c, &mut random()));
    report.check("crane weeks, the two readings", &[], |c| readings(c, &mut random(), count));
}

// ---- one list

fn shown(days: &[u32], w: u32) -> String {
    format!("w {w}, {} days {:?}", days.len(), &days[..days.len().min(20)])
}

/// One list, lent out of the middle of a longer one: beside it stand its first and its last day once more, which must not be
/// counted.
fn week(check: &mut Check, days: &[u32], w: u32) {
    let beside = |day: Option<&u32>| [day.copied().unwrap_or(0); 2];
    let longer = [&beside(days.first()), days, &beside(days.last())].concat();
    let ours = bridge_season::crane_week(&longer[2..2 + days.len()], w);
    check.answers(ours, crane::crane_week(days, w), (0, 0), || shown(days, w));
}

/// Lists whose answers are seen at once: both sides must give them.
fn by_hand(check: &mut Check) {
    let two_weeks = [0, 3, 3, 9, 10, 12];
    let lists: [(&[u32], u32, Result<_, _>); 14] = [
        (&[], 7, Ok((0, 0))),
        (&[], 0, Err(21)),
        (&[], 367, Err(21)),
        (&[5], 1, Ok((1, 5))),
        (&[5, 5, 5], 1, Ok((3, 5))),
        (&[1, 8], 7, Ok((1, 1))),
        (&[1, 8], 8, Ok((2, 1))),
        (&two_weeks, 7, Ok((3, 0))),
        (&two_weeks, 10, Ok((5, 3))),
        (&two_weeks, 4, Ok((3, 0))),
        (&two_weeks, 3, Ok((2, 3))),
        (&[3_294, 3_296, 3_660, 3_660], 366, Ok((3, 3_296))),
        (&[3_661], 7, Err(21)),
        (&[1, 0], 7, Err(21)),
    ];
    for (days, w, answer) in lists {
        check.answers(bridge_season::crane_week(days, w), answer, (0, 0), || shown(days, w));
        check.outcomes(crane::crane_week(days, w), answer, || shown(days, w));
    }
}

// ---- small lists

/// Rising and falling ones, about the first days and about the last one.
fn small_lists(check: &mut Check) {
    for days in [[0, 1, 2, 4, 7], [3_654, 3_658, 3_659, 3_660, 3_661]] {
        lists_of(6, &days, |days| {
            for w in (0..=6).chain([MAX_BLOCK, MAX_BLOCK + 1]) {
                week(check, days, w);
            }
        });
    }
}

/// Lists of up to eight visits, each of them 0 to 3 days after the one before it.
fn small_rising(check: &mut Check) {
    lists_of(7, &[0, 1, 2, 3], |gaps| {
        let mut days = vec![1];
        days.extend(gaps.iter().scan(1, |day, gap| {
            *day += gap;
            Some(*day)
        }));
        for w in 1..=8 {
            week(check, &days, w);
        }
    });
}

// ---- rising lists of every length

fn any_day(random: &mut Random) -> u32 {
    random.between(0, LAST_DAY.into()) as u32
}

/// A block of days, long or short.
fn some_block(random: &mut Random) -> u32 {
    if random.once_in(4) { random.between(1, MAX_BLOCK.into()) as u32 } else { random.pick(&[1, 2, 7, 30, 365, 366]) }
}

/// How many shapes a list may have.
const SHAPES: usize = 8;

/// n rising days, of one of the shapes, to be asked for blocks of w days. A day past the last one begins again at 0.
fn rising(random: &mut Random, n: usize, w: u32, shape: usize) -> Vec<u32> {
    let few: [u32; 6] = std::array::from_fn(|_| any_day(random));
    let first = few[0];
    let same: Vec<u32> = (0..1 + n / (2 + random.index(4))).map(|_| random.below(w.into()) as u32).collect();
    let apart = w + random.below(3) as u32;
    let mut day = |i: usize| match shape {
        // spread evenly
        0 => (i * LAST_DAY as usize / n.saturating_sub(1).max(1)) as u32,
        1 => any_day(random),
        // few days, with many repeats
        2 => random.pick(&few),
        3 => first,
        // dense: within a few blocks
        4 => first + random.below(3 * u64::from(w)) as u32,
        // near the last day, which blocks pass
        5 => LAST_DAY - random.below(u64::from(w) + 2) as u32,
        // a whole number of blocks apart, or nearly
        6 => few[i % 2] + w * random.below(8) as u32 + random.pick(&[0, 0, 1, w - 1]),
        // equal blocks, one after another
        _ => first + apart * (i / same.len()) as u32 + same[i % same.len()],
    };
    let mut days: Vec<u32> = (0..n).map(|i| day(i) % (LAST_DAY + 1)).collect();
    days.sort_unstable();
    days
}

/// Every length, to beyond the most: each shape in its turn, and a drawn one.
fn every_length(check: &mut Check, random: &mut Random) {
    for n in 0..=MAX_VISITS + 1 {
        for shape in [n % SHAPES, random.index(SHAPES)] {
            let w = some_block(random);
            week(check, &rising(random, n, w, shape), w);
        }
    }
}

// ---- random lists

/// A rising list, long now and then, and a block of days.
fn some_list(random: &mut Random, i: u64, long: usize) -> (Vec<u32>, u32) {
    let most = if i % 200 == 0 {
        long
    } else if i % 20 == 0 {
        300
    } else {
        40
    };
    let (n, w, shape) = (random.index(most + 1), some_block(random), random.index(SHAPES));
    (rising(random, n, w, shape), w)
}

/// One of eight with a day changed to a lower one or to a stray one, or with a bad block.
fn some_lists(check: &mut Check, random: &mut Random, count: u64) {
    for i in 0..count {
        let (mut days, mut w) = some_list(random, i, MAX_VISITS);
        if random.once_in(8) {
            let (at, lower) = (random.index(days.len() + 1), random.once_in(2));
            match days.get_mut(at) {
                Some(day) if lower => *day = random.below(u64::from(*day) + 1) as u32,
                Some(day) => *day = stray(random),
                None => w = random.pick(&[0, MAX_BLOCK + 1, (1 << 16) + w, u32::MAX]),
            }
        }
        week(check, &days, w);
    }
}

// ---- the limits

/// Lengths about the most, and some that are good again if their high half is dropped.
fn about_most(check: &mut Check, random: &mut Random) {
    for n in [16_383, 16_384, 16_385, 16_386, 1 << 15, 1 << 16, (1 << 16) + 40] {
        for shape in 0..SHAPES {
            for w in [1, 7, 365, 366] {
                week(check, &rising(random, n, w, shape), w);
            }
        }
    }
}

/// Lengths of lists, short and long.
const LENGTHS: [usize; 9] = [1, 2, 3, 4, 9, 40, 64, 300, MAX_VISITS];

/// Blocks of no days, of few, of about the most, and of numbers that are good again if a high part is dropped; for no visits too.
fn about_longest(check: &mut Check, random: &mut Random) {
    let ends = [0, 1, 2, 255, 256, 257, 364, 365, 366, 367, 368, u32::MAX - 365, u32::MAX];
    let parts = [9, 10, 16, 24, 31].map(|part| 1 << part);
    let dropped = parts.iter().flat_map(|part| [0, 1, 7, 366].map(|low| part + low));
    for w in ends.into_iter().chain(dropped) {
        week(check, &[], w);
        for n in LENGTHS {
            for shape in 0..SHAPES {
                week(check, &rising(random, n, w.clamp(1, MAX_BLOCK), shape), w);
            }
        }
    }
}

/// A last day about the latest there may be, or far beyond it.
fn about_last(check: &mut Check, random: &mut Random) {
    let high = [1 << 12, 1 << 16, (1 << 16) + LAST_DAY, 1 << 31, (1 << 31) + LAST_DAY, u32::MAX];
    for last in [3_658, 3_659, 3_660, 3_661, 3_662].into_iter().chain(high) {
        for n in LENGTHS {
            for shape in 0..SHAPES {
                let w = some_block(random);
                let mut days = rising(random, n, w, shape);
                days[n - 1] = last;
                week(check, &days, w);
            }
        }
    }
}

/// Every place of a short list; of a long one the first ones, the last ones and some.
fn places(random: &mut Random, n: usize) -> Vec<usize> {
    if n <= 300 {
        return (0..n).collect();
    }
    let some = (0..60).map(|_| random.index(n));
    [0, 1, 2, n - 2, n - 1].into_iter().chain(some).collect()
}

/// The days with one of them changed.
fn with_day(days: &[u32], at: usize, day: u32) -> Vec<u32> {
    let mut days = days.to_vec();
    days[at] = day;
    days
}

/// A day that no visit may be on; now and then one that is good again if its high half is dropped.
fn stray(random: &mut Random) -> u32 {
    let again = (1 << 16) + any_day(random);
    random.pick(&[LAST_DAY + 1, again, 1 << 31, u32::MAX])
}

/// A stray day at each place: by itself, and with the same day at all places after it, so that nothing falls.
fn strays(check: &mut Check, random: &mut Random) {
    for n in LENGTHS {
        for shape in 0..SHAPES {
            let w = some_block(random);
            let days = rising(random, n, w, shape);
            week(check, &days, w);
            for at in places(random, n) {
                let day = stray(random);
                let mut strayed = with_day(&days, at, day);
                week(check, &strayed, w);
                strayed[at..].fill(day);
                week(check, &strayed, w);
            }
        }
    }
}

/// At each place the day before that of the place before it, which is a fall by one day; and the same day, which is none. And one
/// visit on the day before all others, at every place of the longest list: a fall but at the first.
fn falls(check: &mut Check, random: &mut Random) {
    for n in (2..=40).chain(LENGTHS) {
        for shape in 0..SHAPES {
            let w = some_block(random);
            let days = rising(random, n, w, shape);
            for at in places(random, n).into_iter().filter(|&at| at > 0 && days[at - 1] > 0) {
                week(check, &with_day(&days, at, days[at - 1] - 1), w);
                week(check, &with_day(&days, at, days[at - 1]), w);
            }
        }
    }
    let days = vec![LAST_DAY; MAX_VISITS];
    for at in 0..MAX_VISITS {
        week(check, &with_day(&days, at, LAST_DAY - 1), 7);
    }
}

// ---- the readings

/// The reading by tallies beside the plain one, on random lists and on the longest ones.
fn readings(check: &mut Check, random: &mut Random, count: u64) {
    let mut both = |days: &[u32], w| {
        check.same(0, crane::by_day(days, w), crane::plain(days, w), || shown(days, w));
    };
    for i in 0..count {
        let (days, w) = some_list(random, i, 1_000);
        both(&days, w);
    }
    for shape in 0..SHAPES {
        let w = some_block(random);
        both(&rising(random, MAX_VISITS, w, shape), w);
    }
}
