//! Rules 1 and 2, the options' test, the neighbor query, the list test and the test of workloads: crate links.
use crate::bridge;
use crate::report::{Check, Report};
use reference::answers::{self, MAX_LIST_LENGTH, MAX_PASS_FACTOR, Options};
use reference::random::Random;
use reference::sites::{self, Site};

pub fn compare(report: &mut Report, seed: u64, count: u64) {
    report.check("load_cap and minimum_load, small", &[], small_loads);
    report.check("load_cap and minimum_load, at the limits", &[], |c| loads(c, &mut Random::new(seed), count));
    report.check("validate", &[0, 1, 17], |c| options(c, &mut Random::new(seed), count));
    report.check("validate, about the ends of every range", &[0, 1, 17], about_ranges);
    report.check("from_owners, all small lists", &[0, 2, 9, 12], small_owners);
    report.check("from_owners, at the limits", &[0, 2, 3, 9, 12], |c| owners(c, &mut Random::new(seed), count));
    report.check("owner_of", &[0, 11], |c| owner_of(c, &mut Random::new(seed), count));
    report.check("owned_count", &[0, 12], |c| owned_count(c, &mut Random::new(seed), count));
    report.check("neighbors_of and neighbors_cause", &[0, 4, 11], |c| neighbors(c, &mut Random::new(seed), count));
    report.check("lists_cause, all small lists", &[0, 4], small_lists);
    report.check("lists_cause, sound and damaged lists", &[0, 4], |c| lists(c, &mut Random::new(seed), count));
    report.check("lists_cause, at the limits", &[0, 4], |c| large_lists(c, &mut Random::new(seed)));
    report.check("workloads_cause, all small lists", &[0, 13], small_workloads);
    report.check("workloads_cause", &[0, 13], |c| workloads(c, &mut Random::new(seed), count));
}

/// Numbers about the widths' ends, or any.
fn edge(random: &mut Random) -> u64 {
    let ends = [0, 1, 2, 255, 256, 257, 1 << 31, (1 << 32) - 2, (1 << 32) - 1, 1 << 32, (1 << 32) + 1, 1 << 63];
    match random.below(4) {
        0 => random.pick(&ends),
        1 => u64::MAX - random.below(3),
        2 => random.below(600),
        _ => random.draw() >> random.below(64),
    }
}

fn edge32(random: &mut Random) -> u32 {
    match random.below(8) {
        0 => u32::MAX - random.below(2) as u32,
        _ => edge(random) as u32,
    }
}

// ---- rule 1

fn both_loads(check: &mut Check, total: u64, ranks: u32, t: u32) {
    let ours = (bridge::load_cap(total, ranks, t), bridge::minimum_load(total, ranks, t));
    let rust = (answers::load_cap(total, ranks, t), answers::minimum_load(total, ranks, t));
    check.same(0, ours, rust, || format!("total {total}, ranks {ranks}, t {t}"));
}

fn small_loads(check: &mut Check) {
    for total in 0..=40 {
        for ranks in 0..=6 {
            for t in 0..=501 {
                both_loads(check, total, ranks, t);
            }
        }
    }
}

fn loads(check: &mut Check, random: &mut Random, count: u64) {
    for _ in 0..count {
        let t = match random.below(4) {
            0 => random.pick(&[0, 1, 30, 499, 500, 501, 999, 1000, 1001, u32::MAX]),
            1 => edge32(random),
            _ => random.below(502) as u32,
        };
        let ranks = match random.below(3) {
            0 => random.pick(&[0, 1, 2, 255, 256, 257, u32::MAX]),
            1 => 1 + random.below(300) as u32,
            _ => edge32(random),
        };
        // about where one of the two products saturates, or any
        let per_mille = if random.once_in(2) { 1000 + u64::from(t) } else { 1000u64.saturating_sub(u64::from(t)) };
        let total = match random.below(3) {
            0 => (u64::MAX / per_mille.max(1) - 1).saturating_add(random.below(3)),
            1 => u64::MAX - random.below(3000),
            _ => edge(random),
        };
        both_loads(check, total, ranks, t);
    }
}

fn validate(check: &mut Check, o: Options) {
    let rust = o.validate();
    check.same(rust, bridge::validate(o), rust, || format!("{o:?}"));
}

fn options(check: &mut Check, random: &mut Random, count: u64) {
    for _ in 0..count {
        let imbalance = if random.once_in(2) { random.between(495, 505) } else { edge(random) };
        let filed = Options::of([edge(random), edge(random), imbalance, edge(random)]);
        validate(check, filed);
        let mut near = |most: u64| if random.once_in(3) { edge(random) } else { random.below(most + 3) };
        validate(check, filed.with([near(MAX_LIST_LENGTH), near(MAX_PASS_FACTOR)]));
    }
}

/// All list lengths and pass factors to beyond their range, and some far beyond it, with the other options good or one or all of
/// them bad: 1 comes before 17.
fn about_ranges(check: &mut Check) {
    let far = [1 << 8, (1 << 8) + 4, 1 << 16, (1 << 32) + 4, (1 << 32) + 8, 1 << 63, u64::MAX];
    let tried: Vec<u64> = (0..=14).chain(far).collect();
    let most = u64::MAX;
    for filed in [
        [12, 64, 30, 2],
        [1, 1, 0, 1],
        [most, most, 500, most],
        [0, 64, 30, 2],
        [12, 0, 30, 2],
        [12, 64, 501, 2],
        [12, 64, 30, 0],
        [0, 0, most, 0],
    ] {
        for &length in &tried {
            for &factor in &tried {
                validate(check, Options::of(filed).with([length, factor]));
            }
        }
    }
}

// ---- rule 2

fn from_owners(check: &mut Check, ranks: u32, owners: &[u32]) {
    let rust = answers::from_owners(ranks, owners);
    check.same(rust, bridge::from_owners(ranks, owners), rust, || {
        format!("ranks {ranks}, {} owners {:?}", owners.len(), &owners[..owners.len().min(20)])
    });
}

/// Each list of up to `length` numbers of `from`.
pub(crate) fn lists_of(length: usize, from: &[u32], mut each: impl FnMut(&[u32])) {
    let mut list = Vec::new();
    fn extend(list: &mut Vec<u32>, left: usize, from: &[u32], each: &mut impl FnMut(&[u32])) {
        each(list);
        for &x in from.iter().filter(|_| left > 0) {
            list.push(x);
            extend(list, left - 1, from, each);
            list.pop();
        }
    }
    extend(&mut list, length, from, &mut each);
}

fn small_owners(check: &mut Check) {
    lists_of(5, &[0, 1, 2, 3, 4, u32::MAX], |owners| {
        for ranks in [0, 1, 2, 3, 4, 5, 6, u32::MAX - 1, u32::MAX] {
            from_owners(check, ranks, owners);
        }
    });
}

/// An owner for each of n vertices and each rank among them, if there is room; 1 a stray owner, 2 a rank left out.
pub(crate) fn some_owners(random: &mut Random, n: usize, ranks: u32, wrong: u64) -> Vec<u32> {
    let bound = u64::from(ranks.max(1));
    let mut owners: Vec<u32> =
        (0..n as u64).map(|v| if v < bound { v as u32 } else { random.below(bound) as u32 }).collect();
    for i in (1..n).rev() {
        owners.swap(i, random.index(i + 1));
    }
    if n == 0 {
        return owners;
    }
    let at = random.index(n);
    match wrong {
        1 => owners[at] = random.pick(&[ranks, ranks.wrapping_add(1), u32::MAX, 1 << 31]),
        2 => {
            let some = random.below(bound) as u32;
            let left_out = random.pick(&[0, ranks.saturating_sub(1), some]);
            let other = (left_out + 1) % ranks.max(1);
            owners.iter_mut().filter(|o| **o == left_out).for_each(|o| *o = other);
        }
        _ => {}
    }
    owners
}

fn owners(check: &mut Check, random: &mut Random, count: u64) {
    for n in [16_383, 16_384, 16_385] {
        for ranks in [0, 1, 2, 255, 256, 257, 16_383, 16_384, 16_385, u32::MAX - 1, u32::MAX] {
            for wrong in 0..3 {
                from_owners(check, ranks, &some_owners(random, n, ranks, wrong));
            }
        }
    }
    for _ in 0..count {
        let n = if random.once_in(2) { random.index(20) } else { random.pick(&[0, 1, 2, 255, 256, 257, 300]) };
        let ranks = match random.below(4) {
            0 => random.pick(&[0, 1, 2, 255, 256, 257, u32::MAX - 1, u32::MAX]),
            1 => n as u32,
            2 => n as u32 + 1,
            _ => random.below(n as u64 + 1) as u32,
        };
        let wrong = random.below(4);
        from_owners(check, ranks, &some_owners(random, n, ranks, wrong));
    }
}

/// A list of any numbers.
fn any_list(random: &mut Random) -> Vec<u32> {
    let n = random.index(12);
    (0..n).map(|_| if random.once_in(4) { edge32(random) } else { random.below(5) as u32 }).collect()
}

fn owner_of(check: &mut Check, random: &mut Random, count: u64) {
    for _ in 0..count {
        let owners = any_list(random);
        let v = match random.below(4) {
            0 => edge(random),
            // an index that is right again if its high half is dropped
            1 => (1 << 32) + random.below(12),
            _ => random.below(owners.len() as u64 + 2),
        };
        check.answers(bridge::owner_of(&owners, v), answers::owner_of(&owners, v), 0, || format!("{owners:?}, v {v}"));
    }
}

fn owned_count(check: &mut Check, random: &mut Random, count: u64) {
    for _ in 0..count {
        let owners = any_list(random);
        let ranks = if random.once_in(2) { random.below(7) as u32 } else { edge32(random) };
        let rank = match random.below(3) {
            0 if !owners.is_empty() => random.pick(&owners),
            1 => edge32(random),
            _ => random.below(7) as u32,
        };
        let ours = bridge::owned_count(ranks, &owners, rank);
        check.answers(ours, answers::owned_count(ranks, &owners, rank), 0, || {
            format!("ranks {ranks}, {owners:?}, rank {rank}")
        });
    }
}

// ---- the lent lists

fn neighbors(check: &mut Check, random: &mut Random, count: u64) {
    for _ in 0..count {
        let sound = sites::any(random, 12);
        let site = match random.below(3) {
            0 => sound,
            1 => sites::damaged(random, &sound),
            _ => Site { offsets: any_list(random), neighbors: any_list(random) },
        };
        let v = match random.below(6) {
            0 => edge(random),
            1 => (1 << 32) + random.below(12),
            _ => random.below(site.vertices() as u64 + 2),
        };
        let ours = bridge::neighbors_of(&site.offsets, &site.neighbors, v);
        let rust = answers::neighbors_of(&site.offsets, &site.neighbors, v).map(|part| [part, &[0]].concat());
        check.answers(ours, rust, vec![0], || format!("{site:?}, v {v}"));
    }
}

fn lists_cause(check: &mut Check, site: &Site) {
    let rust = answers::lists_cause(&site.offsets, &site.neighbors);
    let ours = bridge::lists_cause(&site.offsets, &site.neighbors);
    check.same(rust, ours, rust, || {
        let m = site.neighbors.len();
        format!("{:?} {:?} of {m}", &site.offsets[..site.offsets.len().min(20)], &site.neighbors[..m.min(20)])
    });
}

fn small_lists(check: &mut Check) {
    lists_of(4, &[0, 1, 2, 3, 4], |offsets| {
        lists_of(4, &[0, 1, 2, 3], |neighbors| {
            lists_cause(check, &Site { offsets: offsets.to_vec(), neighbors: neighbors.to_vec() });
        });
    });
}

fn lists(check: &mut Check, random: &mut Random, count: u64) {
    for round in 0..count {
        let size = if round % 50 == 0 { 300 } else { 14 };
        let sound = sites::any(random, size);
        lists_cause(check, &sound);
        let once = sites::damaged(random, &sound);
        lists_cause(check, &once);
        if !once.offsets.is_empty() {
            lists_cause(check, &sites::damaged(random, &sound));
        }
    }
}

fn large_lists(check: &mut Check, random: &mut Random) {
    let large = [
        sites::path(16_384),
        sites::star(16_384),
        sites::grid(128, 128),
        sites::hubs(16_384, 4),
        sites::clique(362),
        sites::sparse(random, 16_384, 65_536),
        sites::clique_chain(16, 90),
    ];
    for site in &large {
        lists_cause(check, site);
        for _ in 0..3 {
            lists_cause(check, &sites::damaged(random, site));
        }
    }
}

// ---- workloads

fn workloads_cause(check: &mut Check, workloads: &[u32], n: u64) {
    let rust = answers::workloads_cause(workloads, n);
    check.same(rust, bridge::workloads_cause(workloads, n), rust, || {
        format!("n {n}, {} workloads {:?}", workloads.len(), &workloads[..workloads.len().min(20)])
    });
}

fn small_workloads(check: &mut Check) {
    lists_of(4, &[0, 1, 2, 9_999, 10_000, 10_001, u32::MAX], |workloads| {
        for n in (0..=5).chain([1 << 32, (1 << 32) + 1, u64::MAX]) {
            workloads_cause(check, workloads, n);
        }
    });
}

/// A stray number anywhere in the list, or none; and lengths about n, one that is right again if its high half is dropped too.
fn workloads(check: &mut Check, random: &mut Random, count: u64) {
    for i in 0..count {
        let n = if i % 100 == 0 { 16_380 + random.index(10) } else { 1 + random.index(70) };
        let mut list = sites::some_workloads(random, n);
        if random.once_in(2) {
            list[random.index(n)] = random.pick(&[0, 10_001, 1 << 16, 1 << 31, u32::MAX]);
        }
        let n = n as u64;
        for n in [n, random.pick(&[n - 1, n + 1, n + (1 << 32), 0])] {
            workloads_cause(check, &list, n);
        }
    }
}
