//! Sites with owners for request P13, good and damaged: of many shapes and of given shares, and with several faults at once.
use crate::report::first_of;
use crate::seasons::{drawn_owners, emptied, in_turn, with};
use reference::answers::{MAX_NEIGHBORS, MAX_RANKS, MAX_VERTICES};
use reference::random::Random;
use reference::sites::{self, Site};
use reference::telemetry::Divided;

pub fn divided(site: Site, ranks: u32, owners: &[u32]) -> Divided {
    Divided { site, ranks, owners: owners.to_vec() }
}

pub fn shown(divided: &Divided) -> String {
    let Divided { site, ranks, owners } = divided;
    let [offsets, neighbors, owners] = [&site.offsets, &site.neighbors, owners].map(|list| first_of(list));
    format!("k {ranks}, offsets {offsets}, neighbors {neighbors}, owners {owners}")
}

// ---- shares

/// How many vertices each of k ranks owns, of n: `most` for one of them, and for each other one as many as are left.
pub fn shares(n: usize, k: usize, most: usize) -> Vec<usize> {
    let mut left = n;
    let mut owned: Vec<usize> = (0..k)
        .map(|rank| {
            let owned = most.min(left + rank + 1 - k);
            left -= owned;
            owned
        })
        .collect();
    owned.rotate_right((n + most) % k);
    owned
}

/// Vertices without links, so many for each rank, rank after rank.
pub fn lone(owned: &[usize]) -> Divided {
    let mut owners = Vec::new();
    for (rank, count) in (0..).zip(owned) {
        owners.resize(owners.len() + count, rank);
    }
    let site = Site { offsets: vec![0; owners.len() + 1], neighbors: Vec::new() };
    Divided { site, ranks: owned.len() as u32, owners }
}

/// The same in pairs, with so many lone ones more for the last rank: each rank has as many entries as it owns of the paired ones.
pub fn paired(owned: &[usize], more: usize) -> Divided {
    let mut pairs = lone(owned);
    let links: Vec<_> = (0..pairs.owners.len()).step_by(2).map(|v| (v, v + 1)).collect();
    pairs.owners.resize(2 * links.len() + more, pairs.ranks - 1);
    pairs.site = Site::new(pairs.owners.len(), &links);
    pairs
}

/// n lone vertices, `most` of them with one of k ranks.
pub fn with_most(n: usize, k: usize, most: usize) -> Divided {
    lone(&shares(n, k, most))
}

/// The same with any greatest share.
pub fn some_share(random: &mut Random, n: usize, k: usize) -> Divided {
    let most = all_most(n, k);
    with_most(n, k, random.between(*most.start() as u64, *most.end() as u64) as usize)
}

/// The numbers that the greatest share of k ranks may have, of n vertices.
pub fn all_most(n: usize, k: usize) -> std::ops::RangeInclusive<usize> {
    n.div_ceil(k)..=n + 1 - k
}

// ---- many shapes

/// So many links between n vertices: those between neighboring numbers first, and then those at greater distances.
pub fn with_links(n: usize, links: usize) -> Site {
    let all = (1..n).flat_map(|apart| (0..n - apart).map(move |v| (v, v + apart)));
    Site::new(n, &all.take(links).collect::<Vec<_>>())
}

/// A site of any shape, of up to 2,000 vertices now and then.
pub fn any(random: &mut Random, i: u64) -> Divided {
    let (size, most_ranks) = if i % 400 == 0 {
        (2_000, MAX_RANKS)
    } else if i % 20 == 0 {
        (300, MAX_RANKS)
    } else {
        (20, 8)
    };
    let site = sites::any(random, size);
    let ranks = 1 + random.index(site.vertices().min(most_ranks as usize)) as u32;
    let owners = drawn_owners(random, site.vertices(), ranks);
    divided(site, ranks, &owners)
}

/// Up to four hubs, which one rank owns and no other vertex, and many vertices for each of the others.
pub fn few_with_most(random: &mut Random) -> Divided {
    let (hubs, ranks) = (1 + random.index(4), 2 + random.below(7) as u32);
    let others = (ranks as usize - 1) * (hubs + 1 + random.index(12));
    let hub_rank = random.below(ranks.into()) as u32;
    let owners = drawn_owners(random, others, ranks - 1);
    let owners = owners.into_iter().map(|owner| if owner < hub_rank { owner } else { owner + 1 });
    let owners: Vec<u32> = vec![hub_rank; hubs].into_iter().chain(owners).collect();
    divided(sites::hubs(owners.len(), hubs), ranks, &owners)
}

// ---- damage

/// With one thing wrong: in the lists, an owner, the owners of one rank, the number of ranks, or how many owners there are.
pub fn damaged(random: &mut Random, mut divided: Divided) -> Divided {
    let Divided { site, ranks, owners } = &mut divided;
    let (at, some) = (random.index(owners.len()), random.below(u64::from(*ranks)) as u32);
    let part = random.pick(&[1 << 8, 1 << 16, 1 << 31]);
    match random.below(6) {
        0 | 1 => *site = sites::damaged(random, site),
        2 => owners[at] = random.pick(&[*ranks, *ranks - 1, owners[at] + part, owners[at] ^ 1, u32::MAX]),
        3 => {
            let rank = random.pick(&[0, *ranks - 1, some]);
            emptied(owners, rank, (rank + 1) % *ranks);
        }
        4 => *ranks = random.pick(&[0, *ranks - 1, *ranks + 1, *ranks + part, MAX_RANKS + 1, u32::MAX]),
        _ => {
            let fewer = owners.len() - random.pick(&[1, 1, 2, 9]).min(owners.len());
            let length = random.pick(&[fewer, fewer, owners.len() + 1, 2 * owners.len()]);
            owners.resize(length, some);
        }
    }
    divided
}

// ---- faults together

/// One way to break a site or its owners.
pub type Fault = fn(&mut Divided);

/// 16,385 vertices, with owners for all or as before.
const VERTICES: [Fault; 2] = [
    |d| {
        more_vertices(d);
        d.owners = d.owners.iter().copied().cycle().take(MAX_VERTICES + 1).collect();
    },
    more_vertices,
];

/// Lone ones, after the others.
fn more_vertices(divided: &mut Divided) {
    let m = divided.site.neighbors.len() as u32;
    divided.site.offsets.resize(MAX_VERTICES + 2, m);
}

/// More than 131,072 entries: a site of 400 vertices that has so many, or the neighbors too long.
const ENTRIES: [Fault; 2] = [
    |d| {
        d.site = with_links(400, MAX_NEIGHBORS / 2 + 1);
        d.owners = in_turn(400, d.ranks);
    },
    |d| d.site.neighbors.resize(MAX_NEIGHBORS + 1, 0),
];

/// A link that only one end has, offsets that do not begin at 0 or end at m, a row that falls, no offsets.
const LISTS: [Fault; 5] = [
    |d| d.site.neighbors[0] = 2,
    |d| {
        d.site.offsets.iter_mut().for_each(|offset| *offset += 1);
        d.site.neighbors.insert(0, 0);
    },
    |d| d.site.neighbors.push(0),
    |d| d.site.neighbors[1..3].reverse(),
    |d| d.site.offsets.clear(),
];

/// No ranks, 2^32 − 1, more than owners, and no owners.
const RANK_COUNT: [Fault; 4] =
    [|d| d.ranks = 0, |d| d.ranks = u32::MAX, |d| d.owners.truncate(d.ranks as usize - 1), |d| d.owners.clear()];

/// 257 ranks.
const RANKS: [Fault; 1] = [|d| d.ranks = MAX_RANKS + 1];

/// A stray owner of the first or the last vertex, or one that is good again if its high half is dropped.
const STRAY_OWNER: [Fault; 3] = [
    |d| d.owners.iter_mut().take(1).for_each(|owner| *owner = 300),
    |d| d.owners.iter_mut().rev().take(1).for_each(|owner| *owner = u32::MAX),
    |d| d.owners.iter_mut().skip(1).take(1).for_each(|owner| *owner += 1 << 16),
];

/// The first or the last of four ranks has no vertex.
const EMPTY_RANK: [Fault; 2] = [|d| emptied(&mut d.owners, 0, 1), |d| emptied(&mut d.owners, 3, 0)];

/// An owner too many, one too few, and a vertex more.
const LENGTH: [Fault; 3] = [
    |d| d.owners.push(1),
    |d| d.owners.truncate(d.owners.len().saturating_sub(1)),
    |d| d.site.offsets.extend(d.site.offsets.last().copied()),
];

/// One way of each kind, and its number.
pub const ONE_OF_EACH: [(u32, Fault); 8] = [
    (3, VERTICES[0]),
    (3, ENTRIES[0]),
    (4, LISTS[0]),
    (2, RANK_COUNT[0]),
    (3, RANKS[0]),
    (12, STRAY_OWNER[0]),
    (9, EMPTY_RANK[0]),
    (18, LENGTH[0]),
];

/// A path of 300 vertices with four ranks.
pub fn whole() -> Divided {
    divided(sites::path(300), 4, &in_turn(300, 4))
}

/// Every combination of faults, one of a kind at most and up to so many ways of each. Too many entries go with one way of each other
/// kind.
pub fn faults_together(ways: usize, mut each: impl FnMut(&Divided)) {
    let mut go = |whole: Vec<Divided>, ways: usize| {
        let few = |kind: &'static [Fault]| &kind[..ways.min(kind.len())];
        let kinds: [&[Fault]; 6] = [&LISTS, &RANK_COUNT, &RANKS, &STRAY_OWNER, &EMPTY_RANK, &LENGTH];
        for broken in kinds.into_iter().fold(whole, |broken, kind| with(broken, few(kind))) {
            with(vec![broken], few(&VERTICES)).iter().for_each(&mut each);
        }
    };
    go(vec![whole()], ways);
    go(with(vec![whole()], &ENTRIES).split_off(1), 1);
}
