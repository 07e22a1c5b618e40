//! Sites to compare on: a graph by its links, as sound lent lists, and generators of many shapes; and divisions asked of them.
use crate::answers::{MAX_LIST_LENGTH, MAX_PASS_FACTOR, MAX_WORKLOAD, Options, SWAPPING};
use crate::link_file::LIMITS;
use crate::random::Random;
use std::collections::BTreeSet;

/// A site's two lent lists.
#[derive(Clone, Debug, PartialEq, Eq)]
pub struct Site {
    pub offsets: Vec<u32>,
    pub neighbors: Vec<u32>,
}

impl Site {
    /// n vertices and these links; a repeated or self link is left out.
    pub fn new(n: usize, links: &[(usize, usize)]) -> Self {
        let mut rows = vec![BTreeSet::new(); n];
        for &(a, b) in links {
            if a != b {
                rows[a].insert(b as u32);
                rows[b].insert(a as u32);
            }
        }
        let rows: Vec<Vec<u32>> = rows.into_iter().map(|row| row.into_iter().collect()).collect();
        Site::of_rows(&rows)
    }

    /// These rows as they stand, sound or not.
    pub fn of_rows(rows: &[Vec<u32>]) -> Self {
        let mut site = Site { offsets: vec![0], neighbors: Vec::new() };
        for row in rows {
            site.neighbors.extend(row);
            site.offsets.push(site.neighbors.len() as u32);
        }
        site
    }

    pub fn vertices(&self) -> usize {
        self.offsets.len().saturating_sub(1)
    }

    pub fn row(&self, v: usize) -> &[u32] {
        &self.neighbors[self.offsets[v] as usize..self.offsets[v + 1] as usize]
    }

    pub fn rows(&self) -> Vec<Vec<usize>> {
        (0..self.vertices()).map(|v| self.row(v).iter().map(|&u| u as usize).collect()).collect()
    }

    /// Each link once, lower end first.
    pub fn links(&self) -> Vec<(usize, usize)> {
        let ends = (0..self.vertices()).flat_map(|v| self.row(v).iter().map(move |&u| (v, u as usize)));
        ends.filter(|(v, u)| v < u).collect()
    }

    /// The vertices without a link.
    pub fn lone(&self) -> Vec<usize> {
        (0..self.vertices()).filter(|&v| self.row(v).is_empty()).collect()
    }

    /// The same graph with its vertices numbered anew at random: ties fall otherwise.
    pub fn shuffled(&self, random: &mut Random) -> Self {
        let n = self.vertices();
        let mut number: Vec<usize> = (0..n).collect();
        for i in (1..n).rev() {
            number.swap(i, random.index(i + 1));
        }
        let links: Vec<_> = self.links().iter().map(|&(a, b)| (number[a], number[b])).collect();
        Site::new(n, &links)
    }

    /// Two sites side by side, with no link between them.
    pub fn beside(&self, other: &Site) -> Self {
        let n = self.vertices();
        let mut links = self.links();
        links.extend(other.links().iter().map(|&(a, b)| (a + n, b + n)));
        Site::new(n + other.vertices(), &links)
    }
}

/// A division asked: of a site, with a workload for each vertex.
#[derive(Clone, Debug)]
pub struct Question {
    pub site: Site,
    pub workloads: Vec<u32>,
    pub ranks: u32,
    pub options: Options,
}

impl Question {
    /// With workloads of 1.
    pub fn new(site: Site, ranks: u32, options: Options) -> Self {
        let workloads = vec![1; site.vertices()];
        Question { site, workloads, ranks, options }
    }

    /// The same with these workloads.
    pub fn weighed(self, workloads: Vec<u32>) -> Self {
        Question { workloads, ..self }
    }

    /// As `ask` reads it. The lists are sound.
    pub fn text(&self) -> String {
        let first = [self.site.vertices() as u64, self.ranks.into()].into_iter().chain(self.options.filed());
        let mut text = first.map(|x| x.to_string()).collect::<Vec<_>>().join(" ");
        if self.options.swapping() != SWAPPING {
            let [length, factor] = self.options.swapping();
            text += &format!("; swaps {length} {factor}");
        }
        if self.workloads != vec![1; self.site.vertices()] {
            text += "; workloads";
            self.workloads.iter().for_each(|w| text += &format!(" {w}"));
        }
        for (a, b) in self.site.links() {
            text += &format!("; {a} {b}");
        }
        text
    }
}

pub fn path(n: usize) -> Site {
    Site::new(n, &(1..n).map(|v| (v - 1, v)).collect::<Vec<_>>())
}

pub fn cycle(n: usize) -> Site {
    Site::new(n, &(0..n).map(|v| (v, (v + 1) % n)).collect::<Vec<_>>())
}

pub fn grid(rows: usize, columns: usize) -> Site {
    let mut links = Vec::new();
    for r in 0..rows {
        for c in 0..columns {
            let v = r * columns + c;
            if c + 1 < columns {
                links.push((v, v + 1));
            }
            if r + 1 < rows {
                links.push((v, v + columns));
            }
        }
    }
    Site::new(rows * columns, &links)
}

pub fn star(n: usize) -> Site {
    hubs(n, n.min(1))
}

/// The first `hubs` vertices are each linked with all other ones.
pub fn hubs(n: usize, hubs: usize) -> Site {
    let mut links = Vec::new();
    for hub in 0..hubs {
        links.extend((hub + 1..n).map(|v| (hub, v)));
    }
    Site::new(n, &links)
}

/// A hub whose leaves have the more links the higher they are numbered, up to `classes`, to vertices beyond the leaves: the groups
/// of its neighbors, numbered by degree falling, come to its row in about falling order.
pub fn skewed_hub(n: usize, leaves: usize, classes: usize) -> Site {
    let mut links: Vec<_> = (1..=leaves).map(|v| (0, v)).collect();
    let (first, mut next) = (leaves + 1, 0);
    for v in 1..=leaves {
        for _ in 0..(v - 1) * classes / leaves {
            links.push((v, first + next % (n - first)));
            next += 1;
        }
    }
    Site::new(n, &links)
}

pub fn clique(n: usize) -> Site {
    hubs(n, n)
}

/// Cliques of `size` in a chain, each linked with the next by one link.
pub fn clique_chain(cliques: usize, size: usize) -> Site {
    let mut links = Vec::new();
    for c in 0..cliques {
        let first = c * size;
        for a in first..first + size {
            links.extend((a + 1..first + size).map(|b| (a, b)));
        }
        if c > 0 {
            links.push((first - 1, first));
        }
    }
    Site::new(cliques * size, &links)
}

/// Two sides, all links between them and none within.
pub fn bipartite(left: usize, right: usize) -> Site {
    let links: Vec<_> = (0..left).flat_map(|a| (left..left + right).map(move |b| (a, b))).collect();
    Site::new(left + right, &links)
}

/// Each vertex hangs on an earlier one, at most `reach` before it.
pub fn tree(random: &mut Random, n: usize, reach: usize) -> Site {
    let mut links = Vec::new();
    for v in 1..n {
        links.push((v - 1 - random.index(v.min(reach.max(1))), v));
    }
    Site::new(n, &links)
}

/// So many links, drawn at random: fewer where one is drawn twice.
pub fn sparse(random: &mut Random, n: usize, links: usize) -> Site {
    let drawn: Vec<_> = (0..links).map(|_| (random.index(n), random.index(n))).collect();
    Site::new(n, &drawn)
}

/// Each pair is linked with this chance in a thousand.
pub fn dense(random: &mut Random, n: usize, per_mille: u64) -> Site {
    let mut links = Vec::new();
    for a in 0..n {
        links.extend((a + 1..n).filter(|_| random.below(1000) < per_mille).map(|b| (a, b)));
    }
    Site::new(n, &links)
}

/// Points in a square, linked up to `reach`; the square's side is 2^20.
pub fn geometric(random: &mut Random, n: usize, reach: u64) -> Site {
    let side = 1 << 20;
    let cells = (side / reach.max(1)).clamp(1, 1024);
    let cell = |x: u64| x * cells / side;
    let points: Vec<_> = (0..n).map(|_| (random.below(side), random.below(side))).collect();
    let mut inside = vec![Vec::new(); (cells * cells) as usize];
    for (v, &(x, y)) in points.iter().enumerate() {
        inside[(cell(x) * cells + cell(y)) as usize].push(v);
    }
    let mut links = Vec::new();
    for (v, &(x, y)) in points.iter().enumerate() {
        for cx in cell(x).saturating_sub(1)..(cell(x) + 2).min(cells) {
            for cy in cell(y).saturating_sub(1)..(cell(y) + 2).min(cells) {
                for &u in &inside[(cx * cells + cy) as usize] {
                    let (dx, dy) = (x.abs_diff(points[u].0), y.abs_diff(points[u].1));
                    if v < u && dx * dx + dy * dy <= reach * reach {
                        links.push((v, u));
                    }
                }
            }
        }
    }
    Site::new(n, &links)
}

/// Graph number `code` of the 2^(n(n−1)/2) on n vertices: bit i is the i-th pair, for tests of all of them.
pub fn numbered(n: usize, code: u64) -> Site {
    let pairs = (0..n).flat_map(|a| (a + 1..n).map(move |b| (a, b)));
    let links: Vec<_> = pairs.enumerate().filter(|(i, _)| code >> i & 1 == 1).map(|(_, l)| l).collect();
    Site::new(n, &links)
}

/// A site of about `size` vertices (1 at least, `size` at most) and of any of these shapes.
pub fn any(random: &mut Random, size: usize) -> Site {
    let n = 1 + random.index(size.max(1));
    let site = match random.below(13) {
        0 => path(n),
        1 => grid(1 + random.index(n.isqrt()), n.isqrt()),
        2 => star(n),
        3 => tree(random, n, 3),
        4 => tree(random, n, n),
        5 => clique(n.min(40)),
        6 => hubs(n, 1 + random.index(n.min(4))),
        7 => clique_chain((n / 5).max(1), n.min(5)),
        8 => sparse(random, n, n / 2),
        9 => sparse(random, n, 3 * n),
        10 => dense(random, n.min(60), 500),
        11 => geometric(random, n, (1 << 20) / (n.isqrt() as u64 + 1)),
        _ => components(random, n),
    };
    if random.once_in(2) { site.shuffled(random) } else { site }
}

/// Small sites of several shapes side by side, lone vertices among them; n vertices in all.
pub fn components(random: &mut Random, n: usize) -> Site {
    let mut site = Site::new(0, &[]);
    while site.vertices() < n {
        let size = 1 + random.index((n - site.vertices()).min(8));
        let next = match random.below(5) {
            0 => Site::new(size, &[]),
            1 => path(size),
            2 => star(size),
            3 => clique(size),
            _ => tree(random, size, size),
        };
        site = site.beside(&next);
    }
    site
}

/// A site of any shape with at most as many links as a link file may have. It may have lone vertices, as a file may not.
pub fn few_links(random: &mut Random, size: usize) -> Site {
    let site = any(random, size);
    let mut links = site.links();
    while links.len() > LIMITS[1] as usize {
        links.remove(random.index(links.len()));
    }
    Site::new(site.vertices(), &links)
}

/// The same with a link more for each lone vertex, to any other one, if there is another. Where the links are as many as a link
/// file may have, one goes whose ends both have others: if there were none, the links would be fewer than a file's vertices.
pub fn linked_up(random: &mut Random, site: &Site) -> Site {
    let n = site.vertices();
    let mut links = site.links();
    let mut degrees: Vec<usize> = (0..n).map(|v| site.row(v).len()).collect();
    for v in 0..n {
        if degrees[v] > 0 || n == 1 {
            continue;
        }
        if links.len() == LIMITS[1] as usize {
            let spare = |&i: &usize| degrees[links[i].0] > 1 && degrees[links[i].1] > 1;
            let spare: Vec<usize> = (0..links.len()).filter(spare).collect();
            let (a, b) = links.swap_remove(random.pick(&spare));
            degrees[a] -= 1;
            degrees[b] -= 1;
        }
        let u = (v + 1 + random.index(n - 1)) % n;
        links.push((v, u));
        degrees[v] += 1;
        degrees[u] += 1;
    }
    Site::new(n, &links)
}

/// The same without the links of one vertex: the first, the last or any.
pub fn with_lone(random: &mut Random, site: &Site) -> Site {
    let n = site.vertices();
    let any = random.index(n);
    let lone = random.pick(&[0, n - 1, any]);
    let mut links = site.links();
    links.retain(|&(a, b)| a != lone && b != lone);
    Site::new(n, &links)
}

/// A sound site's lists with one thing wrong, or nothing where the site has nothing to spoil.
pub fn damaged(random: &mut Random, site: &Site) -> Site {
    let (n, m) = (site.vertices(), site.neighbors.len());
    let mut out = site.clone();
    if n == 0 || m == 0 || random.once_in(2) {
        spoil_numbers(random, &mut out);
        return out;
    }
    // one row changed and the offsets with it, so that only the row is wrong
    let mut rows: Vec<Vec<u32>> = (0..n).map(|v| site.row(v).to_vec()).collect();
    let v = random.index(n);
    let u = random.index(n) as u32;
    let at = random.index(rows[v].len() + 1);
    match random.below(7) {
        0 if at < rows[v].len() => drop(rows[v].remove(at)),
        1 if at < rows[v].len() => {
            let again = rows[v][at];
            rows[v].insert(at, again);
        }
        2 => rows[v].push(n as u32 + random.below(2) as u32),
        3 => {
            rows[v].push(v as u32);
            rows[v].sort_unstable();
        }
        4 => rows[v].reverse(),
        5 if at > 0 => rows[v].swap(at - 1, 0),
        _ => {
            rows[v].push(u);
            rows[v].sort_unstable();
            rows[v].dedup();
        }
    }
    Site::of_rows(&rows)
}

/// One number of the lists changed, or a length.
fn spoil_numbers(random: &mut Random, site: &mut Site) {
    let (n, m) = (site.vertices(), site.neighbors.len());
    let stray = [0, 1, n as u32, n as u32 + 1, m as u32, m as u32 + 1, u32::MAX];
    let number = if random.once_in(2) { random.pick(&stray) } else { random.below(n as u64 + 1) as u32 };
    match random.below(8) {
        0 => site.offsets[random.index(n + 1)] = number,
        1 => {
            let at = random.index(n + 1);
            site.offsets[at] =
                if random.once_in(2) { site.offsets[at] + 1 } else { site.offsets[at].saturating_sub(1) };
        }
        2 => site.offsets.push(number),
        3 => drop(site.offsets.pop()),
        4 => site.offsets.clear(),
        5 if m > 0 => site.neighbors[random.index(m)] = number,
        6 if m > 0 => drop(site.neighbors.pop()),
        _ => site.neighbors.push(number),
    }
}

/// Options that a division takes, the small ones often, and half of the time with the default list length and pass factor.
pub fn some_options(random: &mut Random) -> Options {
    let options = usual_options(random);
    if random.once_in(2) { options } else { options.with(some_swapping(random)) }
}

/// The same with both defaults.
pub fn usual_options(random: &mut Random) -> Options {
    Options::of([
        random.pick(&[1, 2, 3, 12, 32]),
        random.pick(&[1, 1, 2, 3, 64, u64::MAX]),
        random.pick(&[0, 30, 100, 200, 333, 334, 499, 500]),
        random.pick(&[1, 2, 3, 10, u64::MAX]),
    ])
}

/// A question within the limits of a link file, of a site of up to `size` vertices, with workloads of 1. It may have lone vertices.
pub fn some_question(random: &mut Random, size: usize) -> Question {
    let site = few_links(random, size);
    let ranks = 1 + random.index(site.vertices().min(LIMITS[2] as usize)) as u32;
    let options = Options::of([
        random.pick(&[1, 2, 3, 12]),
        random.pick(&[1, 1, 2, 3, 64, u32::MAX.into()]),
        random.pick(&[0, 30, 100, 200, 333, 334, 499, 500]),
        random.pick(&[1, 1, 2, 3, 10]),
    ]);
    Question::new(site, ranks, options)
}

/// The same with workloads, and any imbalance: the wider it is, the more sites are divided.
pub fn some_weighed_question(random: &mut Random, size: usize) -> Question {
    let mut question = some_question(random, size);
    question.options.imbalance_per_mille = random.between(0, 500).max(random.between(0, 500));
    let workloads = some_workloads(random, question.site.vertices());
    question.weighed(workloads)
}

/// A list length and a pass factor that a division takes, the small ones often.
pub fn some_swapping(random: &mut Random) -> [u64; 2] {
    let small = random.once_in(2);
    let mut to = |most: u64| random.between(1, if small { 2 } else { most });
    [to(MAX_LIST_LENGTH), to(MAX_PASS_FACTOR)]
}

/// Workloads that a division takes, all of one kind: any; small; equal; one heavy; the least and the most.
pub fn some_workloads(random: &mut Random, n: usize) -> Vec<u32> {
    let (kind, heavy, some) = (random.below(5), random.index(n), random.between(1, MAX_WORKLOAD.into()));
    let one = |v: usize| match kind {
        0 => random.between(1, MAX_WORKLOAD.into()),
        1 => random.between(1, 4),
        2 => some,
        3 if v == heavy => some,
        3 => 1,
        _ => random.pick(&[1, MAX_WORKLOAD.into()]),
    };
    (0..n).map(one).map(|w| w as u32).collect()
}
