//! Sites whose growth is forced to prescribed owners, for long runs of moves and of swaps.
//!
//! A cluster is a hub with its leaves, and one vertex more, the root, is linked with every leaf. The root has the most links and
//! is the first seed; every hub is then at distance 2 and every leaf at 1, so the hubs are the other seeds, those with more leaves
//! first. A frontier begins with its hub's leaves, a rank claims one in each round, and all ranks get the same number of them
//! (the last seed's one fewer, where a hole is wanted): so each cluster is claimed by its own hub's rank. The root's rank takes
//! the leaves that are numbered first, which have no other link.
use crate::sites::Site;

/// Vertices as they are numbered, and links.
#[derive(Default)]
struct Clusters {
    vertices: usize,
    links: Vec<(usize, usize)>,
    root: usize,
    hubs: Vec<usize>,
}

impl Clusters {
    /// The root, its own leaves, then `count` hubs. The root's cluster is number 0.
    fn new(count: usize, size: usize) -> Self {
        let mut c = Clusters { vertices: 1, ..Clusters::default() };
        for _ in 1..size {
            let leaf = c.vertex();
            c.links.push((0, leaf));
        }
        c.hubs.push(c.root);
        for _ in 0..count {
            let hub = c.vertex();
            c.hubs.push(hub);
        }
        c
    }

    fn vertex(&mut self) -> usize {
        self.vertices += 1;
        self.vertices - 1
    }

    /// A leaf of a cluster.
    fn leaf(&mut self, cluster: usize) -> usize {
        let leaf = self.vertex();
        self.links.push((self.hubs[cluster], leaf));
        self.links.push((self.root, leaf));
        leaf
    }

    fn link(&mut self, a: usize, b: usize) {
        self.links.push((a, b));
    }

    fn site(self) -> Site {
        Site::new(self.vertices, &self.links)
    }
}

/// How many leaves each cluster has so far, to fill them up.
fn fill(c: &mut Clusters, made: &[usize], leaves: impl Fn(usize) -> usize) {
    for cluster in 1..c.hubs.len() {
        for _ in made[cluster]..leaves(cluster) {
            c.leaf(cluster);
        }
    }
}

/// A long run of moves, for `ranks` > 2 ranks of `size` vertices each, the last of one fewer: with an imbalance of 1 per mille
/// (if there are more than 1000 vertices) only that one can be joined. A mover prefers the next cluster's rank, by two anchors
/// there against its own hub; the movers of lower clusters have lower numbers, so each move makes room for one that the pass has
/// already gone by: about one move a pass, size / 3 for each rank.
pub fn moves(ranks: usize, size: usize) -> Site {
    let mut c = Clusters::new(ranks - 1, size);
    let (last, movers) = (ranks - 1, (size - 2) / 3);
    let next = |cluster: usize| if cluster == last { 1 } else { cluster + 1 };
    let mut made = vec![0; ranks];
    let mut moving = Vec::new();
    for cluster in 1..=last {
        for _ in 0..movers {
            moving.push((cluster, c.leaf(cluster)));
            made[cluster] += 1;
        }
    }
    for (cluster, mover) in moving {
        for _ in 0..2 {
            let anchor = c.leaf(next(cluster));
            made[next(cluster)] += 1;
            c.link(mover, anchor);
        }
    }
    fill(&mut c, &made, |cluster| if cluster == last { size - 2 } else { size - 1 });
    c.site()
}

/// A long run of swaps, for `ranks` > 2 ranks of `size` vertices each: with an imbalance of 0 no move is permitted. Each swap
/// changes one vertex of a chain with a partner that gains nothing by it, and only its own gain, which rises when the vertex
/// before it in the chain has been swapped, makes a sum above 0: one swap a pass. The chain goes through the clusters 1 to 2,
/// 3 to 2, 3 to 4 and so on, some size / 6 vertices in each of these pairs.
pub fn swaps(ranks: usize, size: usize) -> Site {
    let mut c = Clusters::new(ranks - 1, size);
    let length = (size - 4) / 6;
    let mut made = vec![0; ranks];
    let mut before: Option<usize> = None;
    for pair in 1..ranks - 1 {
        let (from, to) = if pair % 2 == 1 { (pair, pair + 1) } else { (pair + 1, pair) };
        for i in 0..length {
            let vertex = c.leaf(from);
            if let Some(earlier) = before {
                c.link(earlier, vertex);
            }
            // the first vertex of all has none before it, and the first of a pair that leaves the same cluster loses one at home
            let anchors = if i == 0 && pair % 2 == 1 { 3 } else { 2 };
            let anchor: Vec<usize> = (0..anchors).map(|_| c.leaf(to)).collect();
            for &a in &anchor {
                c.link(vertex, a);
            }
            for a in 1..anchors {
                c.link(anchor[a - 1], anchor[a]);
            }
            let (partner, stay) = (c.leaf(to), c.leaf(from));
            c.link(partner, stay);
            made[from] += 2;
            made[to] += anchors + 1;
            before = Some(vertex);
        }
    }
    fill(&mut c, &made, |_| size - 1);
    c.site()
}
