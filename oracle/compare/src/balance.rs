//! Request P13: the sums over several sites and the site with the largest share, beside a reading of the request
//! (reference::telemetry).
use crate::bridge_season;
use crate::divided::{self, Fault, ONE_OF_EACH, all_most, divided, lone, some_share, whole, with_links, with_most};
use crate::links::{lists_of, some_owners};
use crate::report::{Check, Report, first_of};
use crate::seasons::in_turn;
use reference::answers::{MAX_NEIGHBORS, MAX_RANKS, MAX_VERTICES};
use reference::random::Random;
use reference::sites;
use reference::telemetry::{self, Divided, MAX_SITES, Sites};

pub fn compare(report: &mut Report, seed: u64, count: u64) {
    let random = || Random::new(seed);
    report.check("sites, by hand", &[0, 5, 4, 18, 22], by_hand);
    report.check("sites, every number of sizes", &[0, 22], sizes);
    report.check("sites, equal and larger shares", &[0], ties);
    report.check("sites, equal shares that two divisions tell apart", &[0], told_apart);
    report.check("sites, shares that nearly are equal", &[0], near_ties);
    report.check("sites, all small runs", &[0, 2, 4, 9, 12, 18, 22], small_runs);
    report.check("sites, random runs", &[0, 2, 4, 5, 9, 12, 18, 22], |c| some_runs(c, &mut random(), count));
    report.check("sites, large shares", &[0], |c| large_shares(c, &mut random(), count / 100));
    report.check("sites, slices that end early or late", &[0, 5], |c| ends(c, &mut random()));
    report.check("sites, every size changed", &[0, 2, 3, 4, 5, 9, 12, 18], |c| stray_sizes(c, &mut random()));
    report.check("sites, a fault at every site", &[2, 3, 4, 5, 9, 12, 18], single_faults);
    report.check("sites, two faults at two sites", &[2, 3, 4, 5, 9, 12, 18], two_faults);
    report.check("sites, faults together at one site", &[0, 2, 3, 4, 5, 9, 12, 18], faults_together);
    report.check("sites, offsets that go on", &[0, 4], going_on);
    report.check("sites, at the limits", &[0, 3, 12, 22], |c| at_the_limits(c, &mut random()));
}

// ---- one run of sites

fn shown(lent: &Sites) -> String {
    let Sites { sizes, offsets, neighbors, owners } = lent;
    let [offsets, neighbors, owners] = [offsets, neighbors, owners].map(|list| first_of(list));
    format!("sizes {sizes:?}, offsets {offsets}, neighbors {neighbors}, owners {owners}")
}

fn balance(check: &mut Check, lent: &Sites) {
    check.answers(bridge_season::sites_balance_guarded(lent), telemetry::sites_balance(lent), [0; 4], || shown(lent));
}

/// A run whose answer is seen at once: both sides must give it.
fn seen(check: &mut Check, lent: &Sites, answer: Result<[u64; 4], u32>) {
    check.answers(bridge_season::sites_balance_guarded(lent), answer, [0; 4], || shown(lent));
    check.outcomes(telemetry::sites_balance(lent), answer, || shown(lent));
}

/// Lone vertices, with this site to be named.
fn named(check: &mut Check, run: &[Divided], site: usize) {
    let n = run.iter().map(|divided| divided.owners.len() as u64).sum();
    let k = run.iter().map(|divided| u64::from(divided.ranks)).sum();
    seen(check, &Sites::new(run), Ok([n, k, 0, site as u64]));
}

/// The slices of the lists.
const LISTS: [fn(&mut Sites) -> &mut Vec<u32>; 3] = [|s| &mut s.offsets, |s| &mut s.neighbors, |s| &mut s.owners];

// ---- by hand

/// Sizes, offsets, neighbors, owners, and the answer.
type ByHand<'a> = (&'a [u32], &'a [u32], &'a [u32], &'a [u32], Result<[u64; 4], u32>);

fn by_hand(check: &mut Check) {
    let runs: [ByHand; 19] = [
        (&[], &[], &[], &[], Err(22)),
        (&[], &[0, 0], &[], &[0], Err(22)),
        (&[1, 0, 1], &[0, 0], &[], &[0], Err(22)),
        (&[1, 0, 1, 1], &[0, 0], &[], &[0], Ok([1, 1, 0, 0])),
        (&[1, 0, 1, 1, 1], &[0, 0], &[], &[0], Err(22)),
        (&[1, 0, 1, 1], &[], &[], &[0], Err(5)),
        (&[1, 0, 1, 1], &[0], &[], &[0], Err(5)),
        (&[1, 0, 1, 1], &[0, 0], &[], &[], Err(5)),
        (&[1, 1, 1, 1], &[0, 0], &[], &[0], Err(5)),
        (&[1, 0, 1, 0], &[0, 0], &[], &[], Err(2)),
        (&[0, 0, 1, 1], &[0], &[], &[0], Err(18)),
        (&[0, 0, 1, 1], &[], &[], &[0], Err(5)),
        (&[2, 2, 2, 2], &[0, 1, 2], &[1, 0], &[0, 1], Ok([2, 2, 1, 0])),
        (&[2, 2, 2, 2], &[0, 1, 2, 9], &[1, 0, 9, 9], &[0, 1, 9], Ok([2, 2, 1, 0])),
        (&[2, 2, 1, 2, 2, 2, 2, 2], &[0, 1, 2, 0, 1, 2], &[1, 0, 1, 0], &[0, 0, 0, 1], Ok([4, 3, 1, 0])),
        // the second site's offsets go on from the first's
        (&[2, 2, 1, 2, 2, 2, 2, 2], &[0, 1, 2, 2, 3, 4], &[1, 0, 1, 0], &[0, 0, 0, 1], Err(4)),
        (&[2, 2, 1, 2, 2, 2, 2, 2], &[0, 1, 2, 3, 4], &[1, 0, 1, 0], &[0, 0, 0, 1], Err(5)),
        (&[1, 0, 1, 1, 3, 0, 2, 3], &[0, 0, 0, 0, 0, 0], &[], &[0, 0, 1, 1], Ok([4, 3, 0, 1])),
        (&[1, 0, 1, 2, 3, 0, 2, 3], &[0, 0, 0, 0, 0, 0], &[], &[0, 0, 0, 1, 1], Err(18)),
    ];
    for (sizes, offsets, neighbors, owners, answer) in runs {
        let [sizes, offsets, neighbors, owners] = [sizes, offsets, neighbors, owners].map(<[u32]>::to_vec);
        seen(check, &Sites { sizes, offsets, neighbors, owners }, answer);
    }
}

/// Up to 80 sizes of sites of one vertex, and some more: only the multiples of four from 4 to 64 are taken, whether anything else is
/// lent or not.
fn sizes(check: &mut Check) {
    let most = Sites::new(&vec![lone(&[1]); 400]);
    for length in (0..=80).chain(1_020..=1_032).chain([1_088, 1_600]) {
        let (sizes, sites) = (most.sizes[..length].to_vec(), length as u64 / 4);
        let taken = length % 4 == 0 && (1..=16).contains(&sites);
        let answer = if taken { Ok([sites, sites, 0, 0]) } else { Err(22) };
        seen(check, &Sites { sizes: sizes.clone(), ..most.clone() }, answer);
        let [offsets, neighbors, owners] = [vec![], vec![], vec![]];
        seen(check, &Sites { sizes, offsets, neighbors, owners }, Err(if taken { 5 } else { 22 }));
    }
}

// ---- shares

/// 3/2, by other numbers each.
const EQUAL: [&[usize]; 6] = [&[3, 1], &[1, 2, 3], &[2, 6], &[2, 3, 1, 2], &[1, 3], &[6, 2, 4]];

/// At each two places of up to 16 sites two that have the same share, by the same numbers or others, which all others are below:
/// the earlier one is named. Then with a larger one at the later place or the earlier.
fn ties(check: &mut Check) {
    for (count, j) in (2..=MAX_SITES).flat_map(|count| (1..count).map(move |j| (count, j))) {
        for i in 0..j {
            for at in 0..EQUAL.len() {
                let mut run: Vec<Divided> = (0..count).map(|s| lone([&[1, 1][..], &[2, 1], &[1]][s % 3])).collect();
                run[i] = lone(EQUAL[at]);
                run[j] = lone(EQUAL[(at + i + j) % EQUAL.len()]);
                named(check, &run, i);
                let larger = lone([&[5, 1, 1][..], &[5, 1], &[1, 2, 6]][at % 3]);
                let mut later = run.clone();
                later[j] = larger.clone();
                named(check, &later, j);
                run[i] = larger;
                named(check, &run, i);
            }
        }
    }
    for count in 1..=MAX_SITES {
        let rising: Vec<Divided> = (1..=count).map(|most| lone(&[most, 1])).collect();
        named(check, &rising, count - 1);
        named(check, &rising.iter().rev().cloned().collect::<Vec<_>>(), 0);
        EQUAL.iter().for_each(|owned| named(check, &vec![lone(owned); count], 0));
    }
}

/// n, k and the most vertices of a rank.
type Numbers = [usize; 3];

fn of([n, k, most]: Numbers) -> Divided {
    with_most(n, k, most)
}

/// Equal shares of up to 40 vertices whose owned ratios have other bits, since the average is rounded first: the earlier site is
/// named.
fn told_apart(check: &mut Check) {
    let all = (1..=40).flat_map(|n| (1..=n).flat_map(move |k| all_most(n, k).map(move |most| [n, k, most])));
    let ratio = |[n, k, most]: Numbers| most as f64 / (n as f64 / k as f64);
    let mut first = std::collections::BTreeMap::new();
    for numbers @ [n, k, most] in all {
        let both = (1..=n).rev().find(|d| n % d == 0 && most * k % d == 0).expect("1 divides both");
        let other = *first.entry((most * k / both, n / both)).or_insert(numbers);
        if ratio(other) != ratio(numbers) {
            named(check, &[of(other), of(numbers)], 0);
            named(check, &[of(numbers), of(other)], 0);
        }
    }
}

/// Two shares each, of which the second is the larger: the products most × k × n differ by one.
const NEAR: [[Numbers; 2]; 16] = [
    [[16_384, 3, 10_923], [16_383, 7, 4_681]],
    [[16_384, 5, 3_277], [16_383, 2, 8_192]],
    [[16_384, 5, 3_277], [16_383, 256, 64]],
    [[16_383, 5, 6_553], [16_384, 7, 4_681]],
    [[16_384, 7, 3_901], [16_381, 2, 13_651]],
    [[16_379, 3, 15_287], [16_384, 5, 9_175]],
    [[16_379, 2, 14_741], [16_384, 7, 4_213]],
    [[16_377, 2, 10_528], [16_384, 5, 4_213]],
    [[16_377, 7, 3_008], [16_384, 5, 4_213]],
    [[16_384, 251, 373], [16_377, 7, 13_369]],
    [[16_383, 5, 4_915], [16_381, 2, 12_286]],
    [[16_383, 7, 10_532], [16_381, 5, 14_743]],
    [[16_379, 5, 15_560], [16_383, 7, 11_117]],
    [[16_381, 5, 15_562], [16_377, 7, 11_113]],
    [[16_377, 5, 4_913], [16_379, 2, 12_284]],
    [[16_377, 7, 10_528], [16_379, 5, 14_741]],
];

/// In both orders, and with a smaller share between them and after them.
fn near_ties(check: &mut Check) {
    for two in NEAR {
        let ([below, above], small) = (two.map(of), lone(&[2, 2]));
        named(check, &[below.clone(), above.clone()], 1);
        named(check, &[above.clone(), below.clone()], 0);
        named(check, &[small.clone(), below.clone(), small.clone(), above.clone(), small.clone()], 3);
        named(check, &[small.clone(), above, small.clone(), below, small], 1);
    }
}

/// Drawn shares of many lone vertices, some of them equal.
fn large_shares(check: &mut Check, random: &mut Random, count: u64) {
    for _ in 0..count {
        let mut some = || {
            let (fewer, k) = (random.pick(&[1, 100, 8_000]), random.pick(&[1, 2, 3, 16, 255, MAX_RANKS as usize]));
            let n = MAX_VERTICES - random.index(fewer);
            some_share(random, n, k)
        };
        let three: [Divided; 3] = std::array::from_fn(|_| some());
        let run: Vec<Divided> = (0..2 + random.index(6)).map(|_| three[random.index(3)].clone()).collect();
        balance(check, &Sites::new(&run));
    }
}

// ---- small and random runs

/// Up to three sites out of these, all there are.
fn small_runs(check: &mut Check) {
    let pool = [
        lone(&[1]),
        lone(&[2, 1]),
        lone(&[4, 1, 1]),
        divided(sites::path(2), 2, &[0, 1]),
        divided(sites::path(3), 2, &[0, 1, 0]),
        divided(sites::path(4), 2, &[0, 0, 0, 1]),
        divided(sites::grid(2, 3), 3, &[0, 0, 0, 1, 1, 2]),
        divided(sites::star(4), 1, &[0, 0, 0, 0]),
        divided(sites::star(4), 2, &[1, 0, 0, 0]),
        divided(sites::clique(3), 3, &[2, 1, 0]),
        divided(sites::clique(4), 2, &[0, 1, 1, 0]),
        divided(sites::Site::of_rows(&[vec![1], vec![]]), 2, &[0, 1]),
        divided(sites::Site::of_rows(&[vec![0]]), 1, &[0]),
        divided(sites::Site::new(0, &[]), 1, &[0]),
        divided(sites::path(2), 0, &[0, 0]),
        divided(sites::path(2), 2, &[0, 2]),
        divided(sites::path(2), 2, &[1, 1]),
        divided(sites::path(2), 1, &[0]),
        divided(sites::path(2), 2, &[0, 1, 1]),
    ];
    let places: Vec<u32> = (0..pool.len() as u32).collect();
    lists_of(3, &places, |places| {
        let run: Vec<Divided> = places.iter().map(|&at| pool[at as usize].clone()).collect();
        balance(check, &Sites::new(&run));
    });
}

/// A few sites, or as many as there may be and some more.
fn some_count(random: &mut Random) -> usize {
    let any = 1 + random.index(MAX_SITES);
    random.pick(&[1, 2, 3, any, any, MAX_SITES, any.max(MAX_SITES - 2), MAX_SITES])
}

fn some_run(random: &mut Random, count: usize) -> Vec<Divided> {
    let mut some = || {
        let i = if random.once_in(60) { 20 } else { 1 };
        divided::any(random, i)
    };
    (0..count).map(|_| some()).collect()
}

/// One of four with a site damaged, a size changed, a slice cut short, or one site too many or a size too few.
fn some_runs(check: &mut Check, random: &mut Random, count: u64) {
    for _ in 0..count {
        let count = some_count(random);
        let mut run = some_run(random, count);
        let damage = if random.once_in(4) { 1 + random.below(4) } else { 0 };
        if damage == 1 {
            let at = random.index(count);
            run[at] = divided::damaged(random, run[at].clone());
        }
        let mut lent = Sites::new(&run);
        match damage {
            2 => {
                let at = random.index(lent.sizes.len());
                let size = lent.sizes[at];
                let others = [0, 1 << 31, u32::MAX, size.wrapping_sub(1), size + 1, size + (1 << 16)];
                lent.sizes[at] = random.pick(&others);
            }
            3 => {
                let list = random.pick(&LISTS)(&mut lent);
                let left = random.index(list.len() + 1);
                list.truncate(random.pick(&[left, list.len().saturating_sub(1)]));
            }
            4 if random.once_in(2) => lent.sizes.resize(4 * (MAX_SITES + 1), 0),
            4 => drop(lent.sizes.pop()),
            _ => {}
        }
        balance(check, &lent);
    }
}

// ---- the slices

/// Sites of other shapes each, small ones.
fn different() -> Vec<Divided> {
    vec![
        divided(sites::path(4), 2, &[0, 0, 0, 1]),
        lone(&[1, 1]),
        divided(sites::clique(4), 3, &[0, 1, 2, 2]),
        divided(sites::star(5), 2, &[1, 0, 0, 0, 1]),
    ]
}

/// Each slice by itself, and all at once, of every length to beyond their ends.
fn ends(check: &mut Check, random: &mut Random) {
    let (alone, large) = (vec![divided(sites::grid(3, 3), 2, &in_turn(9, 2))], some_run(random, MAX_SITES));
    for run in [different(), alone, large] {
        let sound = Sites::new(&run);
        let longest = LISTS.map(|list| list(&mut sound.clone()).len()).into_iter().max().expect("a slice");
        for length in 0..=longest + 4 {
            let mut all = sound.clone();
            for list in LISTS {
                let mut one = sound.clone();
                list(&mut one).resize(length, 0);
                balance(check, &one);
                list(&mut all).resize(length, 0);
            }
            balance(check, &all);
        }
    }
}

/// For each site the sum of this size of those before it, with the last offset of each: where the site begins in its slice.
fn begins(run: &[Divided], place: usize) -> Vec<u32> {
    let more = u32::from(place == 0);
    let sums = run.iter().scan(0, |sum, divided| {
        let before = *sum;
        *sum += divided.sizes()[place] + more;
        Some(before)
    });
    sums.collect()
}

/// Each size of a run: to one near it, to 0, to the greatest ones, with a high part more, and, for the slices, to those that bring
/// the sum with the sizes before it to about 2^32. Then two of them at once.
fn stray_sizes(check: &mut Check, random: &mut Random) {
    let (one, most) = (vec![whole()], some_run(random, MAX_SITES));
    for run in [different(), one, most] {
        let sound = Sites::new(&run);
        for at in 0..sound.sizes.len() {
            let size = sound.sizes[at];
            let begin = begins(&run, at % 4)[at / 4];
            let about = (0..8).flat_map(|by: u32| [size.wrapping_add(by), size.wrapping_sub(by), by, u32::MAX - by]);
            let parts = [8, 16, 24, 31].map(|bit| size + (1 << bit));
            let wrapped = (0..8).map(|by: u32| by.wrapping_sub(begin + 4));
            for size in about.chain(parts).chain(wrapped) {
                let mut lent = sound.clone();
                lent.sizes[at] = size;
                balance(check, &lent);
            }
        }
        for (i, j) in (0..sound.sizes.len()).flat_map(|j| (0..j).map(move |i| (i, j))) {
            let mut lent = sound.clone();
            lent.sizes[i] = u32::MAX;
            lent.sizes[j] = u32::MAX - (j - i) as u32 % 3;
            balance(check, &lent);
        }
    }
}

// ---- faults

/// The places of the sizes that may be 2^32 - 1, so that the offsets, the neighbors or the owners end before: 5.
const TOO_SHORT: [usize; 3] = [0, 1, 3];

/// So many small sites, some of them with a fault: one of `ONE_OF_EACH`, or behind these of `TOO_SHORT`.
fn with_faults(count: usize, faults: &[(usize, usize)]) -> Sites {
    let mut run: Vec<Divided> = different().into_iter().cycle().take(count).collect();
    for &(site, kind) in faults {
        if let Some((_, fault)) = ONE_OF_EACH.get(kind) {
            run[site] = whole();
            fault(&mut run[site]);
        }
    }
    let mut lent = Sites::new(&run);
    for &(site, kind) in faults {
        if let Some(i) = kind.checked_sub(ONE_OF_EACH.len()) {
            lent.sizes[4 * site + TOO_SHORT[i]] = u32::MAX;
        }
    }
    lent
}

/// All of them.
const KINDS: std::ops::Range<usize> = 0..ONE_OF_EACH.len() + TOO_SHORT.len();

fn number(kind: usize) -> u32 {
    ONE_OF_EACH.get(kind).map_or(5, |&(number, _)| number)
}

/// Each kind at each of 1, 2 and 16 sites.
fn single_faults(check: &mut Check) {
    for (count, kind) in [1, 2, MAX_SITES].into_iter().flat_map(|count| KINDS.map(move |kind| (count, kind))) {
        (0..count).for_each(|site| seen(check, &with_faults(count, &[(site, kind)]), Err(number(kind))));
    }
}

/// Each two kinds at two of 16 sites: the earlier one is told. Of 17 sites, 22 is.
fn two_faults(check: &mut Check) {
    for (i, j) in [(0, 1), (0, 15), (3, 9), (7, 8), (14, 15)] {
        for (a, b) in KINDS.flat_map(|a| KINDS.map(move |b| (a, b))) {
            seen(check, &with_faults(MAX_SITES, &[(i, a), (j, b)]), Err(number(a)));
        }
    }
    KINDS.for_each(|kind| seen(check, &with_faults(MAX_SITES + 1, &[(0, kind), (16, kind)]), Err(22)));
}

/// Every combination of one way of each kind, at the first, a middle or the last site; and the same where one of the slices ends a
/// number before the site does.
fn faults_together(check: &mut Check) {
    let mut broken = Vec::new();
    divided::faults_together(1, |divided| broken.push(divided.clone()));
    for divided in broken {
        for at in 0..3 {
            let mut run = different();
            run[at] = divided.clone();
            run.truncate(3);
            balance(check, &Sites::new(&run));
            let sound = Sites::new(&run[..=at]);
            for list in LISTS {
                let mut lent = sound.clone();
                list(&mut lent).pop();
                balance(check, &lent);
            }
        }
    }
}

/// The offsets of one site begin at another number than 0, and those of all sites from it on; and those of all go on from site to
/// site.
fn going_on(check: &mut Check) {
    let run = different();
    for (at, by) in (0..run.len()).flat_map(|at| (0..=12).map(move |by| (at, by))) {
        let mut moved = run.clone();
        moved[at].site.offsets.iter_mut().for_each(|offset| *offset += by);
        balance(check, &Sites::new(&moved));
        moved[at..].iter_mut().for_each(|divided| divided.site.offsets.iter_mut().for_each(|offset| *offset += by));
        balance(check, &Sites::new(&moved));
    }
    let mut lent = Sites::new(&run);
    let mut before = 0;
    for (divided, begin) in run.iter().zip(begins(&run, 0)) {
        let begin = begin as usize;
        lent.offsets[begin..][..divided.site.offsets.len()].iter_mut().for_each(|offset| *offset += before);
        before += divided.site.neighbors.len() as u32;
    }
    seen(check, &lent, Err(4));
}

// ---- the limits

/// Sixteen sites of 16,384 vertices, 131,072 entries and 256 ranks, one of them with a share above the others'; with the last owner
/// a stray one; and with one site, vertex, owner, link or rank more.
fn at_the_limits(check: &mut Check, random: &mut Random) {
    let site = with_links(MAX_VERTICES, MAX_NEIGHBORS / 2);
    let mut run = vec![divided(site, MAX_RANKS, &in_turn(MAX_VERTICES, MAX_RANKS)); MAX_SITES];
    run[11].owners = some_owners(random, MAX_VERTICES, MAX_RANKS, 0);
    balance(check, &Sites::new(&run));
    let mut lent = Sites::new(&run);
    *lent.owners.last_mut().expect("an owner") = MAX_RANKS;
    seen(check, &lent, Err(12));
    run.push(lone(&[1]));
    seen(check, &Sites::new(&run), Err(22));
    let more: [Fault; 4] = [
        |d| *d = lone(&[MAX_VERTICES + 1]),
        |d| d.owners.push(0),
        |d| d.site = with_links(MAX_VERTICES, MAX_NEIGHBORS / 2 + 1),
        |d| *d = lone(&[1; MAX_RANKS as usize + 1]),
    ];
    for (at, fault) in [0, 1].into_iter().flat_map(|at| more.map(move |fault| (at, fault))) {
        let mut run = vec![run[0].clone(), run[11].clone()];
        fault(&mut run[at]);
        seen(check, &Sites::new(&run), Err(3));
    }
}
