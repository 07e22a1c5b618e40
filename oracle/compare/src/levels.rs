//! Levels to run the stages on: weights and owners of any kind, not only those that a division comes to.
use crate::bridge_stages::Level;
use reference::answers::{MAX_NEIGHBORS, MAX_VERTICES};
use reference::random::Random;
use reference::sites::{self, Site};

/// Weights add up to less than this, or the level is refused.
pub const MAX_TOTAL: u64 = 1 << 31;

impl Level {
    pub fn new(site: Site, weights: Vec<u32>, owners: Vec<u32>, ranks: u32) -> Self {
        Level { offsets: site.offsets, neighbors: site.neighbors, weights, owners, ranks }
    }

    pub fn total(&self) -> u64 {
        self.weights.iter().map(|&w| u64::from(w)).sum()
    }

    /// With a lone vertex of no weight more for each rank. No rank is empty, nor comes to be; for the Rust hands out no owners then.
    fn attended(mut self) -> Self {
        for r in 0..self.ranks {
            self.offsets.push(self.neighbors.len() as u32);
            self.weights.push(0);
            self.owners.push(r);
        }
        self
    }

    pub fn rows(&self) -> Vec<Vec<usize>> {
        Site { offsets: self.offsets.clone(), neighbors: self.neighbors.clone() }.rows()
    }
}

/// All 1; small, 0 among them; sums of sums, as coarse levels have; as large as they may be; a few large ones.
fn some_weights(random: &mut Random, n: usize) -> Vec<u32> {
    let most = (MAX_TOTAL - 1) / n as u64;
    let kind = random.below(6);
    let one = |random: &mut Random| match kind {
        0 => 1,
        1 => random.below(3),
        2 => 1 + random.below(4),
        3 => 1 << random.below(8),
        4 => most - random.below(most.min(1000)),
        _ if random.once_in(5) => 1 + random.below(n as u64),
        _ => 1,
    };
    (0..n).map(|_| one(random).min(most) as u32).collect()
}

/// At random; in blocks; by turns; few of the ranks, so that others are empty; mostly one; one alone.
fn some_owners(random: &mut Random, n: usize, ranks: u32) -> Vec<u32> {
    let few = 1 + random.below(u64::from(ranks)) as u32;
    let first = random.below(u64::from(ranks)) as u32;
    let kind = random.below(6);
    let one = |random: &mut Random, v: usize| match kind {
        0 => random.below(u64::from(ranks)) as u32,
        1 => (v * ranks as usize / n) as u32,
        2 => v as u32 % ranks,
        3 => random.below(u64::from(few)) as u32,
        4 if random.once_in(4) => random.below(u64::from(ranks)) as u32,
        _ => first,
    };
    (0..n).map(|v| one(random, v)).collect()
}

/// A level of up to `size` vertices, of any shape, weights and owners, half of the time attended; now and then of more ranks than
/// vertices.
pub fn any(random: &mut Random, size: usize) -> Level {
    let site = sites::any(random, size);
    let n = site.vertices();
    let most = random.pick(&[2, 3, 8, 64]).min(n + 1);
    let ranks = 1 + random.index(most) as u32;
    let (weights, owners) = (some_weights(random, n), some_owners(random, n, ranks));
    let level = Level::new(site, weights, owners, ranks);
    if random.once_in(2) { level.attended() } else { level }
}

/// All graphs of up to `most` vertices.
fn graphs(most: usize) -> impl Iterator<Item = Site> {
    (1..=most).flat_map(|n| (0..1u64 << (n * (n - 1) / 2)).map(move |code| sites::numbered(n, code)))
}

/// One owner list on a graph, with weights of 1 and with others.
fn weighed(site: &Site, owners: &[u32], ranks: u32) -> [Level; 2] {
    let n = site.vertices();
    [vec![1; n], [1, 2, 0, 3, 1][..n].to_vec()].map(|weights| Level::new(site.clone(), weights, owners.to_vec(), ranks))
}

/// All graphs of up to five vertices and up to four ranks; rank 0 owns all.
pub fn small() -> impl Iterator<Item = Level> {
    graphs(5).flat_map(|site| (1..=4).flat_map(move |ranks| weighed(&site, &vec![0; site.vertices()], ranks)))
}

/// All graphs of up to four vertices, and all owners of up to three ranks; each attended too.
pub fn small_owned() -> impl Iterator<Item = Level> {
    let levels = graphs(4).flat_map(|site| (1..=3u32).flat_map(move |ranks| all_owners(site.clone(), ranks)));
    levels.flat_map(|level| [level.clone(), level.attended()])
}

fn all_owners(site: Site, ranks: u32) -> impl Iterator<Item = Level> {
    let n = site.vertices() as u32;
    (0..ranks.pow(n)).flat_map(move |code| {
        let owners: Vec<u32> = (0..n).map(|v| code / ranks.pow(v) % ranks).collect();
        weighed(&site, &owners, ranks)
    })
}

/// A chain of moves, one in a pass: a path of n vertices of rank 1, whose last one is rank 0's; the hub, which is linked with all
/// of them, is rank 0's too, and is held there by as many leaves. Each vertex follows the one after it. Only the hub and a lone
/// vertex of rank 2 weigh 1: at t 500 the floor is 0 and the cap 1. Rank 1 ends empty, unless a lone vertex is `left` to it.
pub fn chain_of_moves(n: usize, left: bool) -> Level {
    let mut links: Vec<_> = (1..n).map(|v| (v - 1, v)).collect();
    links.extend((0..n).flat_map(|v| [(v, n), (n, n + 1 + v)]));
    let mut owners = vec![1; n - 1];
    owners.resize(2 * n + 1, 0);
    owners.extend([2, 1].iter().take(if left { 2 } else { 1 }));
    let mut weights = vec![0; owners.len()];
    weights[n] = 1;
    weights[2 * n + 1] = 1;
    Level::new(Site::new(owners.len(), &links), weights, owners, 3)
}

/// A chain of swaps: 2n vertices in linked pairs, of which rank 0 has one and rank 1 the other. Each swap mends two links, and
/// the lists of a pass are as long as they may be. Each vertex's partner has the same place in the other list, or one `turned` by
/// so many.
pub fn chain_of_swaps(n: usize, turned: usize) -> Level {
    let links: Vec<_> = (0..n).map(|v| (v, n + (v + turned) % n)).collect();
    let owners = (0..2 * n).map(|v| (v / n) as u32).collect();
    Level::new(Site::new(2 * n, &links), vec![1; 2 * n], owners, 2)
}

/// Levels at the limits of a division, and of a level's weight.
pub fn large(random: &mut Random) -> Vec<Level> {
    let shapes =
        [sites::sparse(random, MAX_VERTICES, MAX_NEIGHBORS / 2), sites::star(MAX_VERTICES), sites::bipartite(256, 256)];
    let level = |site: Site| {
        let n = site.vertices();
        let weights = vec![((MAX_TOTAL - 1) / n as u64) as u32; n];
        let owners = (0..n).map(|v| if v < 256 { v as u32 } else { random.below(256) as u32 }).collect();
        Level::new(site, weights, owners, 256)
    };
    shapes.map(level).into()
}

/// A level that is refused, most often, with one thing wrong.
pub fn spoilt(random: &mut Random) -> Level {
    let mut level = any(random, 12);
    let n = level.vertices();
    match random.below(6) {
        0 => {
            let site = sites::damaged(random, &Site { offsets: level.offsets, neighbors: level.neighbors });
            level = Level::new(site, level.weights, level.owners, level.ranks);
        }
        1 => drop(level.weights.pop()),
        2 => level.owners.push(0),
        3 => level.owners[random.index(n)] = level.ranks + random.below(2) as u32,
        4 => level.weights[random.index(n)] = random.pick(&[1 << 31, (1 << 31) - 1, u32::MAX]),
        _ => level.ranks = random.pick(&[257, u32::MAX]),
    }
    level
}
