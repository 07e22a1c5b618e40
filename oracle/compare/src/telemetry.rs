//! Request P13: the two ratios of one site beside those of the unchanged Rust (reference::telemetry), by their bits.
use crate::bridge_season;
use crate::divided::{
    self, all_most, divided, few_with_most, lone, paired, shares, shown, some_share, with_links, with_most,
};
use crate::links::{lists_of, some_owners};
use crate::report::{Check, Report};
use crate::season::about;
use crate::seasons::in_turn;
use reference::answers::{MAX_NEIGHBORS, MAX_RANKS, MAX_VERTICES};
use reference::random::Random;
use reference::sites::{self, Site};
use reference::telemetry::{self, Divided};

pub fn compare(report: &mut Report, seed: u64, count: u64) {
    let random = || Random::new(seed);
    report.check("telemetry, by hand", &[0, 2, 3, 4, 9, 12, 18], by_hand);
    report.check("telemetry, equal shares", &[0], equal_shares);
    report.check("telemetry, all small sites", &[0, 2, 9, 12, 18], small_sites);
    report.check("telemetry, all small lists", &[0, 2, 4], small_lists);
    report.check("telemetry, every greatest share", &[0], greatest_shares);
    report.check("telemetry, every greatest share of entries", &[0], greatest_entries);
    report.check("telemetry, greatest shares of many", &[0], |c| many(c, &mut random(), count / 10));
    report.check("telemetry, few vertices with the most entries", &[0], |c| apart(c, &mut random(), count / 4));
    report.check("telemetry, random sites", &[0, 2, 4, 9, 12, 18], |c| some_sites(c, &mut random(), 5 * count));
    report.check("telemetry, faults together", &[0, 2, 3, 4, 9, 12, 18], faults_together);
    report.check("telemetry, owner lists of other lengths", &[0, 2, 3, 9, 18], lengths);
    report.check("telemetry, at the limits", &[0, 2, 3, 4, 9, 12], |c| at_the_limits(c, &mut random()));
    report.check("telemetry, a high part anywhere", &[0, 2, 3, 4, 12], |c| high_parts(c, &mut random()));
}

// ---- one site

fn ratios(check: &mut Check, divided: &Divided) {
    check.answers(bridge_season::telemetry_guarded(divided), telemetry::telemetry(divided), [0; 2], || shown(divided));
}

/// A site whose ratios are seen at once: both sides must give them.
fn seen(check: &mut Check, divided: &Divided, answer: Result<[f64; 2], u32>) {
    let answer = answer.map(|two| two.map(f64::to_bits));
    check.answers(bridge_season::telemetry_guarded(divided), answer, [0; 2], || shown(divided));
    check.outcomes(telemetry::telemetry(divided), answer, || shown(divided));
}

// ---- by hand

/// A site, its owners, and the answer; there are as many ranks as the greatest owner says.
type ByHand<'a> = (Site, &'a [u32], [f64; 2]);

fn by_hand(check: &mut Check) {
    let none = |n| Site::new(n, &[]);
    let good: [ByHand; 15] = [
        (sites::path(4), &[0, 0, 1, 1], [1.0, 1.0]),
        (sites::path(4), &[0, 0, 0, 1], [1.5, 5.0 / 3.0]),
        (sites::path(4), &[1, 0, 0, 1], [1.0, 4.0 / 3.0]),
        (sites::path(4), &[0, 0, 0, 0], [1.0, 1.0]),
        (none(1), &[0], [1.0, 1.0]),
        (none(4), &[2, 1, 0, 3], [1.0, 1.0]),
        (none(4), &[1, 1, 0, 1], [1.5, 1.0]),
        (sites::star(5), &[0, 1, 1, 1, 1], [1.6, 1.0]),
        (sites::star(5), &[0, 1, 2, 3, 4], [1.0, 2.5]),
        (sites::star(5), &[1, 0, 0, 0, 1], [1.2, 1.25]),
        (sites::clique(4), &[0, 1, 2, 2], [1.5, 1.5]),
        // the average is rounded, and so the ratio is not 9/5, 9/7, 5/3 or 12/11 rounded
        (none(5), &[0, 0, 0, 1, 2], [1.799_999_999_999_999_8, 1.0]),
        (none(7), &[1, 0, 0, 2, 2, 1, 0], [1.285_714_285_714_285_6, 1.0]),
        (none(9), &[4, 3, 2, 1, 0, 0, 0, 1, 2], [1.666_666_666_666_666_5, 1.0]),
        (none(11), &[0, 0, 0, 0, 1, 1, 1, 1, 2, 2, 2], [1.090_909_090_909_091, 1.0]),
    ];
    for (site, owners, answer) in good {
        let ranks = owners.iter().max().expect("an owner") + 1;
        seen(check, &divided(site, ranks, owners), Ok(answer));
    }
    refused_by_hand(check);
}

/// Offsets, neighbors, ranks, owners, and the number.
type Refused<'a> = (&'a [u32], &'a [u32], u32, &'a [u32], u32);

fn refused_by_hand(check: &mut Check) {
    let bad: [Refused; 26] = [
        (&[], &[], 1, &[0], 4),
        (&[], &[], 0, &[], 4),
        (&[0], &[], 0, &[], 2),
        (&[0], &[], 1, &[], 2),
        (&[0], &[], 1, &[0], 18),
        (&[0], &[], 1, &[1], 12),
        (&[0], &[0], 1, &[0], 4),
        (&[1, 1], &[], 1, &[0], 4),
        (&[1, 1], &[0], 1, &[0], 4),
        (&[2, 3, 4], &[1, 0, 1, 0], 1, &[0, 0], 4),
        (&[0, 1], &[0], 1, &[0], 4),
        (&[0, 1], &[], 1, &[0], 4),
        (&[0, 1, 1], &[1], 2, &[0, 1], 4),
        (&[0, 1, 2], &[1, 0], 0, &[0, 1], 2),
        (&[0, 1, 2], &[1, 0], 3, &[0, 1], 2),
        (&[0, 1, 2], &[1, 0], 3, &[0, 3], 2),
        (&[0, 1, 2], &[1, 0], 3, &[0, 1, 2], 18),
        (&[0, 1, 2], &[1, 0], u32::MAX, &[0, 1], 2),
        (&[0, 1, 2], &[1, 0], 2, &[0, 2], 12),
        (&[0, 1, 2], &[1, 0], 2, &[0, 0, 2], 12),
        (&[0, 1, 2], &[1, 0], 2, &[1, 1], 9),
        (&[0, 1, 2], &[1, 0], 2, &[0, 0, 0], 9),
        (&[0, 1, 2], &[1, 0], 2, &[0, 0, 1], 18),
        (&[0, 1, 2], &[1, 0], 1, &[0], 18),
        (&[0, 1, 2], &[1, 0], 2, &[0], 2),
        (&[0, 1, 2], &[1, 0], 1, &[0; 16_385], 3),
    ];
    for (offsets, neighbors, ranks, owners, number) in bad {
        let site = Site { offsets: offsets.to_vec(), neighbors: neighbors.to_vec() };
        seen(check, &divided(site, ranks, owners), Err(number));
    }
}

/// Every number of ranks, each with 1, 2, 3, 5 or 12 vertices of a path, or with as many as there may be of lone ones: the owned
/// ratio is 1.
fn equal_shares(check: &mut Check) {
    let one = |divided: &Divided| telemetry::telemetry(divided).map(|[owned, _]| owned);
    for ranks in 1..=MAX_RANKS {
        for each in [1, 2, 3, 5, 12] {
            let n = ranks as usize * each;
            let in_turn = divided(sites::path(n), ranks, &in_turn(n, ranks));
            let in_row = Divided { owners: lone(&vec![each; ranks as usize]).owners, ..in_turn.clone() };
            for path in [in_turn, in_row] {
                ratios(check, &path);
                check.outcomes(one(&path), Ok(1f64.to_bits()), || shown(&path));
            }
        }
        seen(check, &lone(&vec![MAX_VERTICES / ranks as usize; ranks as usize]), Ok([1.0; 2]));
    }
}

// ---- all small ones

/// All graphs of up to four vertices with all ranks and all owners, of up to three vertices also with a stray owner, with one owner
/// more and with fewer.
fn small_sites(check: &mut Check) {
    for n in 0..=4 {
        let some: Vec<u32> = (0..if n < 4 { n + 1 } else { n }).collect();
        let longest = some.len();
        let graphs: Vec<Site> =
            (0..1 << (n * n.saturating_sub(1) / 2)).map(|g| sites::numbered(n as usize, g)).collect();
        lists_of(longest, &some, |owners| {
            for site in graphs.iter().filter(|_| n < 4 || owners.len() == 4) {
                for ranks in 0..=n + 1 {
                    ratios(check, &divided(site.clone(), ranks, owners));
                }
            }
        });
    }
}

/// All lists of up to four numbers, with one or two ranks and an owner for each vertex.
fn small_lists(check: &mut Check) {
    lists_of(4, &[0, 1, 2, 4], |offsets| {
        lists_of(4, &[0, 1, 2], |neighbors| {
            let site = Site { offsets: offsets.to_vec(), neighbors: neighbors.to_vec() };
            let n = site.vertices();
            ratios(check, &divided(site, n.min(2) as u32, &in_turn(n, 2)));
        });
    });
}

// ---- every share

/// Of up to 120 lone vertices, for every number of ranks and every greatest share.
fn greatest_shares(check: &mut Check) {
    for (n, k) in (1..=120).flat_map(|n| (1..=n).map(move |k| (n, k))) {
        all_most(n, k).for_each(|most| ratios(check, &with_most(n, k, most)));
    }
}

/// The same of up to 70 entries; up to three lone vertices tell the other ratio apart.
fn greatest_entries(check: &mut Check) {
    for (m, k) in (2..=70).step_by(2).flat_map(|m| (1..=m).map(move |k| (m, k))) {
        all_most(m, k).for_each(|most| ratios(check, &paired(&shares(m, k, most), most % 4)));
    }
}

/// Drawn shares of up to 16,384 vertices, which are lone, and now and then of up to 131,072 entries.
fn many(check: &mut Check, random: &mut Random, count: u64) {
    for i in 0..count {
        let n = 1 + random.index(MAX_VERTICES);
        let most_ranks = random.pick(&[4, 40, MAX_RANKS as usize]);
        let k = 1 + random.index(most_ranks.min(n));
        ratios(check, &some_share(random, n, k));
        if i % 100 == 0 {
            let links = random.index(MAX_NEIGHBORS / 2 + 1);
            let owners = some_owners(random, n, k as u32, 0);
            ratios(check, &divided(with_links(n, links), k as u32, &owners));
        }
    }
}

/// The rank with the most entries is not the one with the most vertices.
fn apart(check: &mut Check, random: &mut Random, count: u64) {
    for _ in 0..count {
        ratios(check, &few_with_most(random));
    }
}

// ---- random sites

/// One of eight with one thing wrong.
fn some_sites(check: &mut Check, random: &mut Random, count: u64) {
    for i in 0..count {
        let sound = divided::any(random, i);
        let site = if random.once_in(8) { divided::damaged(random, sound) } else { sound };
        ratios(check, &site);
    }
}

// ---- refusals

/// The order in which faults are told is 3 by n and m, 4, 2, 3 by k and the owners, 12, 9, 18.
fn faults_together(check: &mut Check) {
    divided::faults_together(usize::MAX, |divided| ratios(check, divided));
}

/// Owners about as many as vertices, some far fewer or far more; the last rank owns those that are added.
fn lengths(check: &mut Check) {
    for (n, ranks) in [(1, 1), (3, 2), (5, 5), (12, 5), (90, 40), (600, 256), (MAX_VERTICES, 8)] {
        for length in about(n) {
            let mut sound = divided(sites::path(n), ranks, &in_turn(n, ranks));
            sound.owners.resize(length, ranks - 1);
            ratios(check, &sound);
            sound.owners.fill(0);
            ratios(check, &sound);
        }
    }
}

/// Vertices, entries and ranks about the most, and numbers of them that are good again if a high part is dropped.
fn at_the_limits(check: &mut Check, random: &mut Random) {
    for n in [16_383, 16_384, 16_385, 17_000, 1 << 15, 1 << 16, (1 << 16) + 300] {
        for ranks in [1, 2, 255, 256, 257, 258, 512] {
            for site in [Site::new(n, &[]), sites::path(n)] {
                ratios(check, &divided(site, ranks, &some_owners(random, n, ranks, 0)));
            }
        }
    }
    for (n, links) in [363, 600, MAX_VERTICES].into_iter().flat_map(|n| (65_534..=65_538).map(move |l| (n, l))) {
        for ranks in [1, 7, 256, 257] {
            let mut site = divided(with_links(n, links), ranks, &some_owners(random, n, ranks, 0));
            ratios(check, &site);
            site.site.neighbors.push(0);
            ratios(check, &site);
        }
    }
    about_ranks(check, random);
}

/// Numbers of ranks about the most, with good and bad lists and owners; and each rank of 256 as the one with the most vertices or
/// entries, as the one that has none, and its number as a stray one for all ranks below it.
fn about_ranks(check: &mut Check, random: &mut Random) {
    for (n, ranks) in [255, 256, 257, 258, 300].into_iter().flat_map(|n| (254..=259).map(move |ranks| (n, ranks))) {
        for wrong in 0..3 {
            let sound = divided(sites::path(n), ranks, &some_owners(random, n, ranks, wrong));
            ratios(check, &sound);
            for site in [sites::damaged(random, &sound.site), sites::path(n + 1)] {
                ratios(check, &Divided { site, ..sound.clone() });
            }
        }
    }
    for rank in 0..MAX_RANKS {
        let mut owners = in_turn(600, MAX_RANKS);
        owners[300..303].fill(rank);
        ratios(check, &divided(sites::path(600), MAX_RANKS, &owners));
        ratios(check, &divided(sites::path(600), rank, &owners));
        owners.iter_mut().filter(|owner| **owner == rank).for_each(|owner| *owner = (rank + 1) % MAX_RANKS);
        ratios(check, &divided(sites::path(600), MAX_RANKS, &owners));
        let hub = divided(sites::star(256), MAX_RANKS, &in_turn(256, MAX_RANKS));
        ratios(check, &Divided { owners: hub.owners.iter().map(|owner| (owner + rank) % MAX_RANKS).collect(), ..hub });
    }
}

/// Numbers with a high part more, as if it were dropped: the number of ranks, each owner, offset and neighbor, and all of a list.
fn high_parts(check: &mut Check, random: &mut Random) {
    let lists: [fn(&mut Divided) -> &mut Vec<u32>; 3] =
        [|d| &mut d.owners, |d| &mut d.site.offsets, |d| &mut d.site.neighbors];
    for (n, ranks) in [(1, 1), (2, 2), (4, 2), (40, 4), (300, 40), (400, 256)] {
        let sound = divided(sites::path(n), ranks, &some_owners(random, n, ranks, 0));
        for part in [8, 9, 14, 16, 17, 24, 31].map(|bit| 1 << bit) {
            ratios(check, &Divided { ranks: ranks + part, ..sound.clone() });
            for list in lists {
                let mut all = sound.clone();
                list(&mut all).iter_mut().for_each(|number| *number += part);
                ratios(check, &all);
                for at in 0..list(&mut all).len() {
                    let mut one = sound.clone();
                    list(&mut one)[at] += part;
                    ratios(check, &one);
                }
            }
        }
    }
}
