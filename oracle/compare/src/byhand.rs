//! That the reference is built right, before anything is compared with it: the sites by hand, asked of the Rust, its stages one by
//! one beside its driver, and what the requests of document 02 change in it and what not.
use crate::report::{Check, Report};
use reference::answers::{Options, SWAPPING, changed, oracle_partition, partition};
use reference::random::Random;
use reference::sites::{self, Question, Site, path, some_swapping, some_workloads, star, usual_options};
use reference::trace::trace;
use reference::unchanged::stages;
use reference::{before_p9, in_force, p1_alone, unchanged};

/// Owners, and some of the stats: their place in `AbtmMultilevelStats`, and the number.
pub type Answer = Result<(&'static [u32], &'static [(usize, u64)]), u32>;

/// Document 01's sites by hand, among them the one of four lone vertices, which only the library divides, since no file may have
/// it (request P7); then one where two ranks offer the same gain and the lighter one is not the lower (request P4); and two whose
/// workloads forbid a swap (request P1): a load is below the floor before it, or above the cap after it; and two that the list
/// length or the pass factor changes (request P9): a path where only a second candidate has a swap, and a path with a leaf where a
/// second pass has one more; and three where growth gets stuck though k × cap is the total or more (request P14): three pairs and
/// four, of which a step is kept, and a path with a heavier end.
pub fn table() -> Vec<(Question, Answer)> {
    let pairs = Site::new(6, &[(0, 1), (2, 3), (4, 5)]);
    let four_pairs = Site::new(8, &[(0, 1), (2, 3), (4, 5), (6, 7)]);
    let rows: [&[usize]; 6] = [&[1, 2, 5, 6, 7], &[3, 4, 5, 7], &[3, 4, 5, 7], &[5, 6], &[6, 7], &[7]];
    let links: Vec<_> = rows.iter().enumerate().flat_map(|(v, row)| row.iter().map(move |&u| (v, u))).collect();
    let eight = Site::new(8, &links);
    let five = Site::new(5, &[(0, 1), (0, 3), (1, 2), (2, 3), (2, 4)]);
    let four = Site::new(4, &[(0, 3), (1, 3), (2, 3)]);
    let turned = Site::new(4, &[(0, 1), (0, 2), (1, 3)]);
    let leafed = Site::new(6, &[(0, 1), (1, 2), (2, 3), (2, 5), (3, 4)]);
    let asked = |site: Site, ranks, options| Question::new(site, ranks, Options::of(options));
    let swapping = |site: &Site, ranks, passes, swapping| {
        Question::new(site.clone(), ranks, Options::of([12, 64, 30, passes]).with(swapping))
    };
    vec![
        (asked(path(4), 2, [12, 64, 30, 2]), Ok((&[0, 0, 1, 1], &[(6, 2), (7, 2)]))),
        (asked(path(4), 2, [12, 1, 30, 2]), Ok((&[0, 0, 1, 1], &[(0, 1), (1, 2), (2, 2)]))),
        (asked(path(5), 2, [12, 64, 199, 2]), Err(8)),
        (asked(path(5), 2, [12, 64, 200, 2]), Ok((&[0, 0, 0, 1, 1], &[]))),
        (asked(path(4), 3, [12, 64, 500, 2]), Err(9)),
        (asked(path(4), 3, [12, 64, 499, 2]), Err(8)),
        (asked(star(4), 2, [1, 1, 30, 2]), Ok((&[0, 0, 1, 1], &[(1, 3), (2, 1), (3, 2), (4, 1), (6, 4), (7, 3)]))),
        (asked(star(4), 2, [12, 1, 499, 2]), Err(6)),
        (asked(star(4), 2, [12, 1, 500, 2]), Ok((&[0, 0, 0, 1], &[(0, 2)]))),
        (asked(pairs.clone(), 4, [12, 1, 333, 2]), Err(6)),
        (asked(pairs.clone(), 4, [12, 1, 334, 2]), Err(7)),
        (asked(Site::new(4, &[]), 2, [12, 1, 30, 2]), Ok((&[0, 1, 0, 1], &[(4, 2), (0, 0), (3, 0)]))),
        (
            asked(eight, 3, [1, 2, 500, 3]),
            Ok((&[1, 1, 2, 2, 1, 2, 0, 1], &[(0, 1), (1, 4), (2, 4), (3, 0), (4, 0), (5, 3), (6, 20), (7, 12)])),
        ),
        (
            asked(five, 3, [2, 2, 200, 2]).weighed(vec![1064, 8401, 2172, 6255, 4692]),
            Ok((&[1, 2, 0, 0, 1], &[(0, 0), (1, 5), (2, 0), (3, 0), (4, 1), (5, 0), (6, 8), (7, 8)])),
        ),
        (
            asked(four, 3, [3, 2, 366, 3]).weighed(vec![5, 4, 3, 6]),
            Ok((&[1, 2, 1, 0], &[(0, 0), (1, 4), (2, 0), (3, 0), (4, 1), (5, 0), (6, 6), (7, 5)])),
        ),
        (
            swapping(&turned, 2, 2, [1, 4]),
            Ok((&[0, 0, 1, 1], &[(0, 0), (1, 4), (2, 0), (3, 0), (4, 1), (5, 0), (6, 4), (7, 4)])),
        ),
        (
            swapping(&turned, 2, 2, [8, 4]),
            Ok((&[1, 0, 1, 0], &[(0, 0), (1, 4), (2, 0), (3, 0), (4, 1), (5, 1), (6, 2), (7, 2)])),
        ),
        (
            swapping(&leafed, 3, 1, [1, 4]),
            Ok((&[1, 0, 0, 1, 2, 2], &[(0, 0), (1, 6), (2, 0), (3, 0), (4, 2), (5, 0), (6, 8), (7, 8)])),
        ),
        (
            swapping(&leafed, 3, 1, [8, 1]),
            Ok((&[1, 1, 0, 0, 2, 2], &[(0, 0), (1, 6), (2, 0), (3, 0), (4, 2), (5, 1), (6, 6), (7, 6)])),
        ),
        (
            swapping(&leafed, 3, 1, [8, 4]),
            Ok((&[1, 1, 2, 0, 0, 2], &[(0, 0), (1, 6), (2, 0), (3, 0), (4, 2), (5, 2), (6, 4), (7, 4)])),
        ),
        (swapping(&turned, 2, 2, [0, 4]), Err(17)),
        (swapping(&turned, 2, 2, [13, 4]), Err(17)),
        (swapping(&turned, 2, 2, [8, 0]), Err(17)),
        (swapping(&turned, 2, 2, [8, 9]), Err(17)),
        (asked(pairs, 2, [12, 1, 30, 2]), Err(8)),
        (asked(four_pairs, 3, [12, 1, 125, 2]), Err(8)),
        (asked(path(3), 2, [12, 64, 30, 2]).weighed(vec![1, 1, 2]), Err(8)),
    ]
}

/// A site of any shape, ranks and options, with workloads of 1 and the default list length and pass factor.
fn drawn(random: &mut Random) -> Question {
    let site = sites::any(random, 60);
    let ranks = 1 + random.index(site.vertices().min(6)) as u32;
    Question::new(site, ranks, usual_options(random))
}

/// The stages called one by one, beside the driver that calls them.
fn one_by_one(check: &mut Check, question: &Question) {
    let traced = trace(question);
    let counts = traced.counts(question.site.vertices());
    let ours = traced.owners.map(|owners| (owners, counts));
    let rust = partition(question).map(|(owners, stats)| (owners, *stats.first_chunk().expect("six of eight")));
    check.outcomes(ours, rust, || question.text());
}

pub fn check(report: &mut Report, seed: u64, count: u64) {
    report.check("the Rust on the sites by hand", &[0, 6, 7, 8, 9, 17], |check| {
        for (question, expected) in table() {
            let answer = partition(&question);
            let expected = expected.map(|(owners, stats)| (owners.to_vec(), stats.to_vec()));
            let shown = answer.map(|(owners, stats)| match &expected {
                Ok((_, some)) => (owners, some.iter().map(|&(at, _)| (at, stats[at])).collect()),
                Err(_) => (owners, Vec::new()),
            });
            check.outcomes(expected, shown, || question.text());
        }
        let linked = Site::new(4, &[(0, 2), (1, 3)]).rows();
        let length = SWAPPING[0] as usize;
        let swapped = stages::refine_fine_pair_swaps(&linked, &[1; 4], 2, &[0, 0, 1, 1], 30, 8, length);
        check.outcomes(Ok((vec![1, 0, 1, 0], 1)), swapped, || "the swap rule".into());
        let kept = in_force::stages::refine_fine_pair_swaps(&linked, &[1; 4], 2, &[0, 0, 1, 1], 30, 8, 1);
        check.outcomes(Ok((vec![0, 0, 1, 1], 0)), kept, || "the swap rule, lists of 1".into());
    });
    report.check("the Rust's stages one by one", &[0, 6, 7, 8, 9], |check| {
        let mut random = Random::new(seed);
        for _ in 0..count / 10 {
            let mut question = drawn(&mut random);
            let workloads = some_workloads(&mut random, question.site.vertices());
            one_by_one(check, &question);
            question.options = question.options.with(some_swapping(&mut random));
            one_by_one(check, &question);
            one_by_one(check, &question.weighed(workloads));
        }
    });
    // where no request can change an answer; and some answers change: a step here is one
    report.check("the Rust in force and unchanged", &[0, 6, 8], |check| {
        let mut random = Random::new(seed);
        for _ in 0..count / 10 {
            let question = drawn(&mut random);
            let [ours, rust] = [in_force::asked, unchanged::asked].map(|oracle| oracle_partition(oracle, &question));
            if changed(&question) {
                check.made(u64::from(ours != rust));
            } else {
                check.outcomes(ours, rust, || question.text());
            }
        }
    });
    report.check("the Rust with request P1 alone and unchanged, workloads of 1", &[0, 6, 8], |check| {
        let mut random = Random::new(seed);
        for _ in 0..count / 10 {
            let question = drawn(&mut random);
            let [ours, rust] = [p1_alone::asked, unchanged::asked].map(|oracle| oracle_partition(oracle, &question));
            check.outcomes(ours, rust, || question.text());
        }
    });
    // and some answers change with other numbers than the defaults: a step here is one
    report.check("the Rust in force and before request P9, its defaults", &[0, 6, 8], |check| {
        let mut random = Random::new(seed);
        for _ in 0..count / 10 {
            let mut question = drawn(&mut random);
            if random.once_in(2) {
                question.workloads = some_workloads(&mut random, question.site.vertices());
            }
            let [ours, rust] = [in_force::asked, before_p9::asked].map(|oracle| oracle_partition(oracle, &question));
            check.outcomes(ours.clone(), rust, || question.text());
            question.options = question.options.with(some_swapping(&mut random));
            check.made(u64::from(oracle_partition(in_force::asked, &question) != ours));
        }
    });
}
