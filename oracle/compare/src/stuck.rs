//! Request P14: when growth gets stuck, exactly. Ours is compared with the Rust, and the Rust's answer is held to a reading of the
//! request by numbers alone (reference::stuck).
use crate::bridge;
use crate::division::{answered, some_site};
use crate::report::{Check, Report};
use reference::answers::{MAX_RANKS, MAX_VERTICES, MAX_WORKLOAD, Options};
use reference::link_file::{self, LIMITS};
use reference::random::Random;
use reference::sites::{self, Question, Site, some_options, some_swapping, some_workloads};
use reference::stuck;
use reference::trace::trace;

// ---- one division

/// n, k and the imbalance.
fn sizes(question: &Question) -> (u64, u64, u64) {
    (question.site.vertices() as u64, question.ranks.into(), question.options.imbalance_per_mille)
}

/// Whether no step is kept, by the numbers, beside the trace, whose steps are returned.
fn steps_kept(check: &mut Check, question: &Question, number: u32) -> usize {
    let (n, ranks, _) = sizes(question);
    let links = question.site.links().len() as u64;
    let none = stuck::no_step(n, links, ranks, question.options.coarse_vertices_per_rank);
    let steps = trace(question).coarsened.len();
    check.same(number, none, steps == 0, || format!("whether no step is kept of {}", question.text()));
    steps
}

/// One division of both. Where no step is kept and the workloads are all 1, the Rust's answer must be one that is claimed, and 8
/// exactly where the imbalance is below the least; else nothing is claimed of the answer, and it is returned.
fn unclaimed(check: &mut Check, random: &mut Random, question: &Question) -> Option<u32> {
    let number = answered(check, random, question, 1, 1).err().unwrap_or(0);
    let steps = steps_kept(check, question, number);
    if steps > 0 || question.workloads.iter().any(|&w| w != 1) {
        return Some(number);
    }
    let (n, ranks, t) = sizes(question);
    let claimed = stuck::claimed(n, ranks, t);
    let told = if claimed.contains(&number) { number } else { claimed[0] };
    let ours = (told, t < stuck::least(n, ranks));
    check.same(number, ours, (number, number == 8), || format!("what is claimed of {}", question.text()));
    None
}

/// The same where something is claimed of the answer.
fn held(check: &mut Check, random: &mut Random, question: &Question) {
    if let Some(number) = unclaimed(check, random, question) {
        check.same(number, "unclaimed", "claimed", || question.text());
    }
}

/// Imbalances about the least one, and the ends of their range.
fn about_least(n: u64, ranks: u64) -> impl Iterator<Item = u64> {
    let least = stuck::least(n, ranks);
    let below = least.checked_sub(1);
    let ends = [0, 500].into_iter().filter(move |&t| t != least && Some(t) != below);
    below.into_iter().chain([least]).filter(|&t| t <= 500).chain(ends)
}

// ---- where 8 is claimed

/// All graphs of up to five vertices, all ranks, and every imbalance about a change of the cap, with the least
/// coarse_vertices_per_rank of which no step is kept, which is 1 where there is no link, and with larger ones.
fn small(check: &mut Check, random: &mut Random) {
    small_sites(|site, n, ranks| {
        let least = if site.neighbors.is_empty() { 1 } else { n.div_ceil(ranks) };
        for t in changes(n, ranks) {
            for per_rank in [least, 64, 1 << 63] {
                for [levels, passes] in [[1, 1], [12, 2]] {
                    let options = Options::of([levels, per_rank, t, passes]);
                    held(check, random, &Question::new(site.clone(), ranks as u32, options));
                }
            }
        }
    });
}

/// All graphs of up to five vertices, with n and every k.
fn small_sites(mut each: impl FnMut(&Site, u64, u64)) {
    for n in 1..=5u64 {
        for code in 0..1u64 << (n * (n - 1) / 2) {
            let site = sites::numbered(n as usize, code);
            (1..=n).for_each(|ranks| each(&site, n, ranks));
        }
    }
}

/// The imbalances at which the cap changes, those before them, and the ends of the range.
fn changes(n: u64, ranks: u64) -> Vec<u64> {
    let cap = |t| stuck::cap(n, ranks, t);
    (0..=500).filter(|&t| t == 0 || t == 500 || cap(t) != cap(t - 1) || cap(t + 1) != cap(t)).collect()
}

/// Every n and k that a link file allows, with imbalances about the least one: on a path, a star, a linked-up site of any shape, one
/// of few links, and one of none, of which no step is kept with any option. What a file can hold is divided as it is read.
fn every_file(check: &mut Check, random: &mut Random) {
    for n in 1..=LIMITS[0] as usize {
        for ranks in 1..=n.min(LIMITS[2] as usize) {
            let any = sites::few_links(random, n).links();
            let linked = sites::linked_up(random, &Site::new(n, &any));
            let few = sites::sparse(random, n, n / 2);
            let least = n.div_ceil(ranks) as u64;
            for site in [sites::path(n), sites::star(n), linked, few, Site::new(n, &[])] {
                for t in about_least(n as u64, ranks as u64) {
                    let per_rank =
                        if site.neighbors.is_empty() { 1 } else { random.pick(&[least, 64, u32::MAX.into()]) };
                    let options = Options::of([random.pick(&[1, 12]), per_rank, t, random.pick(&[1, 2])]);
                    let question = Question::new(site.clone(), ranks as u32, options);
                    let read = through_file(check, random, &question);
                    held(check, random, &read.unwrap_or(question));
                }
            }
        }
    }
}

/// A question with workloads of 1 as it is read from its link file, which has them or not; none where no file can hold it.
fn through_file(check: &mut Check, random: &mut Random, question: &Question) -> Option<Question> {
    let Question { site, workloads, ranks, options } = question;
    let (n, links) = (site.vertices(), site.links());
    if links.len() > LIMITS[1] as usize || n > 1 && !site.lone().is_empty() {
        return None;
    }
    let [levels, per_rank, t, passes] = options.filed().map(|x| x as u32);
    let ends: Vec<_> = links.iter().map(|&(a, b)| (a as u32, b as u32)).collect();
    let carried = if random.once_in(2) { workloads.as_slice() } else { &[] };
    let file = link_file::write([n as u32, 0, *ranks, levels, per_rank, t, passes], &ends, carried);

    let (mut offsets, mut neighbors, mut loads) = (vec![77; n + 1], vec![77; 2 * ends.len()], vec![77; n]);
    let (number, header) = bridge::read_link_file(&file, &mut offsets, &mut neighbors, &mut loads);
    let [_, _, ranks, filed @ ..] = header;
    let read = Question::new(Site { offsets, neighbors }, ranks as u32, Options::of(filed)).weighed(loads);
    check.same(0, (number, format!("{read:?}")), (0, format!("{question:?}")), || question.text());
    (number == 0).then_some(read)
}

/// Random sites, large now and then, with coarse_vertices_per_rank at its least or far above it, and imbalances near the least.
fn some_sites(check: &mut Check, random: &mut Random, count: u64) {
    for i in 0..count {
        let mut question = some_site(random, i);
        let (n, ranks, _) = sizes(&question);
        let per_rank = n.div_ceil(ranks);
        question.options.coarse_vertices_per_rank =
            random.pick(&[per_rank, per_rank, per_rank + 1, n, 1 << 63, u64::MAX]);
        question.options.imbalance_per_mille = near_least(random, n, ranks);
        if random.once_in(4) {
            question.options = question.options.with(some_swapping(random));
        }
        held(check, random, &question);
    }
}

/// An imbalance near the least one, or any.
fn near_least(random: &mut Random, n: u64, ranks: u64) -> u64 {
    let near = (stuck::least(n, ranks) + random.below(3)).saturating_sub(1).min(500);
    if random.once_in(4) { random.between(0, 500) } else { near }
}

// ---- where nothing is claimed

/// Whether a step is kept of all graphs of up to five vertices, all ranks, and each coarse_vertices_per_rank about the least one
/// with which none is, or far above it. A step is one that is kept.
fn small_steps(check: &mut Check) {
    small_sites(|site, n, ranks| {
        for per_rank in (1..=n + 1).chain([64, 1 << 61, 1 << 62, 1 << 63, u64::MAX]) {
            for levels in [1, 12] {
                let options = Options::of([levels, per_rank, 500, 1]);
                let steps = steps_kept(check, &Question::new(site.clone(), ranks as u32, options), 0);
                check.made(steps as u64);
            }
        }
    });
}

/// A small site with workloads of 1, of which a step is kept if it has a link and more vertices than ranks.
fn with_steps(random: &mut Random) -> Question {
    let site = sites::any(random, 12);
    let n = site.vertices();
    let ranks = 1 + random.index(n.min(6));
    let most = 1.max(n.div_ceil(ranks) as u64 - 1);
    let coarse_vertices_per_rank = random.pick(&[1, 1, 1, most]);
    let imbalance_per_mille = near_least(random, n as u64, ranks as u64);
    let options = Options { coarse_vertices_per_rank, imbalance_per_mille, ..some_options(random) };
    Question::new(site, ranks as u32, options)
}

/// A small site with any workloads, of which no step is kept.
fn with_workloads(random: &mut Random) -> Question {
    let site = sites::any(random, 12);
    let ranks = 1 + random.index(site.vertices().min(6)) as u32;
    let imbalance_per_mille = random.between(0, 500);
    let options = Options { coarse_vertices_per_rank: 64, imbalance_per_mille, ..some_options(random) };
    let workloads = some_workloads(random, site.vertices());
    Question::new(site, ranks, options).weighed(workloads)
}

/// Such sites. A step is an answer that the same claim would not allow where nothing is claimed: 8 though the caps are not short of
/// the summed workload, or another though they are. Both must come.
fn otherwise(check: &mut Check, random: &mut Random, count: u64, draw: fn(&mut Random) -> Question) {
    let mut met = [false; 2];
    for _ in 0..count {
        let question = draw(random);
        let Some(number) = unclaimed(check, random, &question) else { continue };
        let (_, ranks, t) = sizes(&question);
        let total = question.workloads.iter().map(|&w| u64::from(w)).sum();
        let short = stuck::short(total, ranks, t);
        let unlike = (number == 8) != short;
        met[usize::from(short)] |= unlike;
        check.made(unlike.into());
    }
    check.same(0, met, [true; 2], || "8 though the caps are not short, and another though they are".into());
}

// ---- numbers alone

/// The cap, for small totals and for any that workloads may have.
fn caps(check: &mut Check, random: &mut Random, count: u64) {
    let mut one = |total: u64, ranks: u64, t: u64| {
        let ours = bridge::load_cap(total, ranks as u32, t as u32);
        check.same(0, ours, stuck::cap(total, ranks, t), || format!("total {total}, ranks {ranks}, t {t}"));
    };
    for total in 1..=64 {
        for ranks in 1..=total.min(8) {
            (0..=500).for_each(|t| one(total, ranks, t));
        }
    }
    for _ in 0..count {
        let n = random.between(1, MAX_VERTICES as u64);
        let total = if random.once_in(2) { n } else { random.between(n, n * u64::from(MAX_WORKLOAD)) };
        one(total, random.between(1, n.min(MAX_RANKS.into())), random.between(0, 500));
    }
}

/// The caps that ours has are short of n exactly where the imbalance is below the least one: for all n up to 2048 and some larger
/// ones, or for all, and all k.
fn least_of_all(check: &mut Check, random: &mut Random, all: bool) {
    let most = MAX_VERTICES as u64;
    let larger: Vec<u64> =
        if all { (2049..=most).collect() } else { (0..200).map(|_| random.between(2049, most)).collect() };
    for n in (1..=2048).chain(larger) {
        for ranks in 1..=n.min(MAX_RANKS.into()) {
            for t in about_least(n, ranks) {
                let ours = ranks * bridge::load_cap(n, ranks as u32, t as u32) < n;
                let below = t < stuck::least(n, ranks);
                check.same(if below { 8 } else { 0 }, ours, below, || format!("n {n}, ranks {ranks}, t {t}"));
            }
        }
    }
}

// ---- the checks

pub fn compare(report: &mut Report, seed: u64, count: u64, long: bool) {
    let random = || Random::new(seed);
    report.check(
        "growth gets stuck exactly when k × cap < n, all graphs of up to five vertices",
        &[0, 8, 9],
        |check| small(check, &mut random()),
    );
    report.check("growth gets stuck exactly when k × cap < n, every n and k that a file allows", &[0, 8, 9], |check| {
        every_file(check, &mut random())
    });
    report.check("growth gets stuck exactly when k × cap < n, random sites", &[0, 8, 9], |check| {
        some_sites(check, &mut random(), count / 4)
    });
    report.check(
        "no step is kept exactly where the numbers say so, all graphs of up to five vertices",
        &[],
        small_steps,
    );
    report.check("growth that gets stuck otherwise, where a step is kept", &[0, 6, 7, 8], |check| {
        otherwise(check, &mut random(), count / 4, with_steps)
    });
    report.check("growth that gets stuck otherwise, with workloads", &[0, 6, 8], |check| {
        otherwise(check, &mut random(), count / 4, with_workloads)
    });
    report.check("the cap that growth gets stuck by, and load_cap", &[], |check| caps(check, &mut random(), count));
    report.check("the least imbalance with which growth does not get stuck", &[0, 8], |check| {
        least_of_all(check, &mut random(), long)
    });
}
