//! Rule 9 and requests P1 and P7: the link file's check and reader, crate multilevel, beside a reading of documents 01 and 02
//! (reference::link_file).
use crate::bridge;
use crate::report::{Check, Report};
use reference::link_file::{self, Contents, LIMITS};
use reference::random::Random;
use reference::sites::{self, Site};
use std::path::Path;

pub fn compare(report: &mut Report, seed: u64, count: u64) {
    let random = || Random::new(seed);
    report.check("link file, samples/", &[0, 3, 10, 13, 14], |c| samples(c, &mut random()));
    report.check("link file, all small files", &[0, 10, 13, 14], |c| small_files(c, &mut random()));
    report.check("link file, sizes about the limits", &[0, 3, 10, 13, 14], |c| about_limits(c, &mut random()));
    report.check("link file, every length", &[0, 10, 13, 14], |c| every_length(c, &mut random()));
    report.check("link file, good files", &[0, 5], |c| good_files(c, &mut random(), count));
    report.check("link file, lone vertices", &[3, 10, 13, 14], |c| lone_files(c, &mut random(), count));
    report.check("link file, damaged files", &[0, 3, 5, 10, 13, 14], |c| damaged_files(c, &mut random(), 5 * count));
}

// ---- one file

/// A lent slice between two guards; all its numbers are drawn, so that a number written too much is seen.
struct Lent {
    numbers: Vec<u32>,
    length: usize,
}

const GUARD: usize = 4;

impl Lent {
    /// A need met exactly, with room to spare, short by one, or by more.
    fn new(random: &mut Random, need: usize) -> Self {
        let length = match random.below(10) {
            0 => need.saturating_sub(1),
            1 => random.index(need + 1),
            2..=5 => need + 1 + random.index(9),
            _ => need,
        };
        Lent { numbers: (0..length + 2 * GUARD).map(|_| random.draw() as u32).collect(), length }
    }

    fn part(&mut self) -> &mut [u32] {
        &mut self.numbers[GUARD..GUARD + self.length]
    }

    /// The numbers and guards as they are once `written` stands at the part's start.
    fn after(&self, written: &[u32]) -> Vec<u32> {
        let mut numbers = self.numbers.clone();
        numbers[GUARD..GUARD + written.len()].copy_from_slice(written);
        numbers
    }
}

/// How many offsets, neighbors and workloads the header asks for, where there is one and its sizes are not beyond measure.
fn needs(file: &[u8]) -> [usize; 3] {
    let size = |i: usize| link_file::numbers(file).get(i).map_or(0, |&x| x.min(300) as usize);
    [size(0) + 1, 2 * size(1), size(0)]
}

fn shown(file: &[u8], lent: [usize; 3]) -> String {
    let numbers = link_file::numbers(file);
    format!("{} bytes, numbers {numbers:?}, lent {lent:?} (offsets, neighbors, workloads)", file.len())
}

/// The check and the reader on one file, which starts anywhere in memory.
fn both(check: &mut Check, random: &mut Random, file: &[u8]) {
    let from = random.index(4);
    let mut memory: Vec<u8> = (0..from + file.len() + 8).map(|_| random.draw() as u8).collect();
    memory[from..from + file.len()].copy_from_slice(file);
    let lent_file = &memory[from..from + file.len()];

    let cause = link_file::check(file).map_or_else(|number| number, |_| 0);
    check.same(cause, bridge::link_file_cause(lent_file), cause, || shown(file, [0; 3]));

    let mut lent = needs(file).map(|need| Lent::new(random, need));
    let lengths = lent.each_ref().map(|slice| slice.length);
    let expected = match link_file::read(file, lengths) {
        Ok(Contents { header, site, workloads }) => {
            let written = [site.offsets, site.neighbors, workloads];
            (0, header.map(u64::from), std::array::from_fn(|i| lent[i].after(&written[i])))
        }
        Err(number) => (number, [0; 7], lent.each_ref().map(|slice| slice.after(&[]))),
    };
    let [offsets, neighbors, workloads] = lent.each_mut().map(Lent::part);
    let (number, header) = bridge::read_link_file(lent_file, offsets, neighbors, workloads);
    let ours = (number, header, lent.map(|slice| slice.numbers));
    check.same(expected.0, ours, expected, || shown(file, lengths));
}

// ---- files

fn samples(check: &mut Check, random: &mut Random) {
    let folder = Path::new(env!("CARGO_MANIFEST_DIR")).join("../../samples");
    let mut names: Vec<_> = std::fs::read_dir(&folder)
        .expect("samples/")
        .map(|entry| entry.expect("an entry of samples/").path())
        .collect();
    names.sort();
    for name in names.iter().filter(|name| name.extension().is_some_and(|e| e == "links")) {
        both(check, random, &std::fs::read(name).expect("a sample"));
    }
}

/// Each file of up to 4 vertices and up to 2 links with ends to 4, and those of 4 vertices and 3 links: without workloads, with good
/// ones, and with one out of its range.
fn small_files(check: &mut Check, random: &mut Random) {
    for n in 0..=4 {
        for e in 0..=if n == 4 { 3 } else { 2 } {
            for code in 0..25u32.pow(e) {
                let links: Vec<_> = (0..e).map(|i| code / 25u32.pow(i) % 25).map(|l| (l / 5, l % 5)).collect();
                for workloads in [[].as_slice(), &[1, 10_000, 2, 300], &[0, 1, 1, 1], &[10_001, 1, 1, 1]] {
                    let workloads = &workloads[..workloads.len().min(n as usize)];
                    both(check, random, &link_file::write([n, 0, 1, 1, 1, 0, 1], &links, workloads));
                }
            }
        }
    }
}

/// Every number of the limits below, at and above its limit, with as many links and bytes as the header says, without workloads and
/// with them, each vertex linked, and the last one lone; then far beyond, where a sum of 32 bits wraps; each file cut and
/// lengthened; and its last number changed.
fn about_limits(check: &mut Check, random: &mut Random) {
    let numbers = [256, 1 << 16, 1 << 24, 1 << 29, 1 << 31, u32::MAX - 2, u32::MAX];
    for code in 0..324 {
        let mut header = [0, 0, 0, 0, 1, 0, 1];
        let above = [code / 27 % 3, code / 9 % 3, code / 3 % 3, code % 3];
        (0..4).for_each(|i| header[i] = LIMITS[i] - 1 + above[i]);
        let workloads = vec![10_000; if code / 81 % 2 == 0 { 0 } else { header[0] as usize }];
        let linked = if code < 162 { header[0] } else { header[0] - 1 };
        let links: Vec<_> = (0..4).flat_map(|a| (a + 1..linked).map(move |b| (a, b))).collect();
        let file = link_file::write(header, &links[..header[1] as usize], &workloads);
        both(check, random, &file);
        both(check, random, &file[..file.len() - 1]);
        both(check, random, &[&file[..], &[0]].concat());
        for number in numbers {
            for at in 0..4 {
                both(check, random, &with_word(&file, at, number));
            }
            both(check, random, &with_word(&file, file.len() / 4 - 1, number));
        }
    }
}

/// Some sites' files at every length from that of the header to beyond the longer of the two that are taken; the workloads are good,
/// or the last of them is not. Two of the sites have lone vertices.
fn every_length(check: &mut Check, random: &mut Random) {
    let path = |n: u32| (1..n).map(|v| (v - 1, v)).collect::<Vec<_>>();
    for (n, linked) in [(0, 0), (1, 1), (2, 2), (4, 4), (64, 64), (2, 0), (64, 2)] {
        for last in [10_000, 10_001, 0] {
            let mut workloads = vec![1; n as usize + 3];
            workloads[(n as usize).saturating_sub(1)] = last;
            let file = link_file::write([n, 0, 1, 1, 1, 0, 1], &path(linked), &workloads);
            for length in 28..=file.len() {
                both(check, random, &file[..length]);
            }
        }
    }
}

fn with_word(file: &[u8], at: usize, number: u32) -> Vec<u8> {
    let mut file = file.to_vec();
    file[4 * at..4 * at + 4].copy_from_slice(&number.to_le_bytes());
    file
}

/// A site within a file's limits, of any shape, now and then with more vertices, and each of them linked if there is another.
fn linked_site(random: &mut Random) -> Site {
    let size = random.pick(&[3, 8, 20, 64]);
    let site = sites::few_links(random, size);
    let n = site.vertices() as u64;
    let n = if random.once_in(4) { random.between(n, LIMITS[0].into()) } else { n };
    sites::linked_up(random, &Site::new(n as usize, &site.links()))
}

/// The same with a lone vertex among two or more: the first, the last or any has lost its links; or there are some more, or one; or
/// there is no link at all.
fn lone_site(random: &mut Random) -> Site {
    let site = linked_site(random);
    let (n, most) = (site.vertices(), LIMITS[0] as usize);
    let kind = if n == 1 { 0 } else { random.below(8) };
    match kind {
        0 if n < most => Site::new(n + 1 + random.index(most - n), &site.links()),
        1 if n < most => Site::new(n + 1, &site.links()),
        2 => Site::new(n, &[]),
        _ => sites::with_lone(random, &site),
    }
}

/// A header, links and workloads (or none) of such a site: nothing else is wrong.
fn filed(random: &mut Random, site: fn(&mut Random) -> Site) -> ([u32; 7], Vec<(u32, u32)>, Vec<u32>) {
    let site = site(random);
    let n = site.vertices();
    let links = site.links().iter().map(|&(a, b)| (a as u32, b as u32)).collect();
    let any = |random: &mut Random| (random.draw() >> random.between(32, 63)) as u32;
    let header = [n as u32, 0, random.below(9) as u32, random.below(13) as u32, any(random), any(random), any(random)];
    let workloads = if random.once_in(2) { Vec::new() } else { sites::some_workloads(random, n) };
    (header, links, workloads)
}

/// A file that is refused by this number, or accepted if it is 0.
fn known(check: &mut Check, random: &mut Random, file: &[u8], number: u32) {
    let cause = link_file::check(file).err().unwrap_or(0);
    assert_eq!(cause, number, "{}", shown(file, [0; 3]));
    both(check, random, file);
}

fn good_files(check: &mut Check, random: &mut Random, count: u64) {
    for _ in 0..count {
        let (header, links, workloads) = filed(random, linked_site);
        known(check, random, &link_file::write(header, &links, &workloads), 0);
    }
}

/// Lone vertices, and half of the time what comes before them: a number above its limit, a wrong link, a wrong workload.
fn lone_files(check: &mut Check, random: &mut Random, count: u64) {
    for _ in 0..count {
        let (mut header, mut links, mut workloads) = filed(random, lone_site);
        let number = random.pick(&[14, 14, 14, 3, 10, 13]);
        match number {
            3 => {
                let i = random.pick(&[0, 2, 3]);
                header[i] = LIMITS[i] + 1 + random.below(3) as u32;
            }
            10 => wrong_link(random, header[0], &mut links),
            13 => wrong_workload(random, header[0] as usize, &mut workloads),
            _ => {}
        }
        known(check, random, &link_file::write(header, &links, &workloads), number);
    }
}

/// One or two of: lone vertices, wrong links, wrong workloads, wrong bytes.
fn damaged_files(check: &mut Check, random: &mut Random, count: u64) {
    for _ in 0..count {
        let kinds = [random.below(4), random.below(4)];
        let site = if kinds.contains(&0) { lone_site } else { linked_site };
        let (header, mut links, mut workloads) = filed(random, site);
        if kinds.contains(&1) {
            spoil_links(random, header[0], &mut links);
        }
        if kinds.contains(&2) {
            spoil_workloads(random, header[0] as usize, &mut workloads);
        }
        let mut file = link_file::write(header, &links, &workloads);
        if kinds.contains(&3) {
            file = spoil_bytes(random, file);
        }
        both(check, random, &file);
    }
}

/// A link turned, with one end twice or beyond the vertices, standing twice or before its turn. No vertex gets a link by it.
fn wrong_link(random: &mut Random, n: u32, links: &mut Vec<(u32, u32)>) {
    if links.is_empty() {
        links.push((n, n + 1));
    }
    let i = random.index(links.len());
    let (low, high) = links[i];
    match random.below(5) {
        0 => links[i] = (high, low),
        1 => links[i] = (low, low),
        2 if i > 0 => links[i] = links[i - 1],
        3 if i > 0 => links.swap(i - 1, i),
        _ => links[i].1 = n,
    }
}

/// A workload out of its range.
fn wrong_workload(random: &mut Random, n: usize, workloads: &mut Vec<u32>) {
    workloads.resize(n, 1);
    workloads[random.index(n)] = random.pick(&[0, 10_001, 1 << 14, 1 << 16, 1 << 24, u32::MAX]);
}

/// A workload out of its range, or one too few, or one too many.
fn spoil_workloads(random: &mut Random, n: usize, workloads: &mut Vec<u32>) {
    workloads.resize(n, 1);
    match random.below(6) {
        0 => drop(workloads.pop()),
        1 => workloads.push(1),
        _ => wrong_workload(random, n, workloads),
    }
}

/// Links swapped, turned, repeated, left out, added or changed in one end: the file's length fits them still.
fn spoil_links(random: &mut Random, n: u32, links: &mut Vec<(u32, u32)>) {
    let end = |random: &mut Random| random.below(u64::from(n) + 2) as u32;
    if links.is_empty() || random.once_in(6) {
        let link = (end(random), end(random));
        links.insert(random.index(links.len() + 1), link);
        return;
    }
    let (i, j) = (random.index(links.len()), random.index(links.len()));
    match random.below(8) {
        0 => links.swap(i, j),
        1 => links.swap(i, i.saturating_sub(1)),
        2 => links[i] = (links[i].1, links[i].0),
        3 => links.insert(i, links[j]),
        4 => drop(links.remove(i)),
        5 => links[i].0 = end(random),
        6 => links[i].1 = end(random),
        _ => links[i].1 = links[i].0,
    }
}

/// Bytes cut off, added, changed, moved; or a word changed, a size of the header often.
fn spoil_bytes(random: &mut Random, mut file: Vec<u8>) -> Vec<u8> {
    let at = random.index(file.len());
    match random.below(9) {
        0 => file.truncate(at),
        1 => file.truncate(file.len() - 8 * random.index(file.len() / 8)),
        2 => (0..=random.index(9)).for_each(|_| file.push(random.draw() as u8)),
        3 => file.extend([0; 8]),
        4 => file[at] = random.draw() as u8,
        5 => file[at] ^= 1 << random.below(8),
        6 => file.rotate_left(at),
        7 => {
            let i = random.index(4);
            let number = LIMITS[i] - 1 + random.below(4) as u32;
            return with_word(&file, i, number);
        }
        _ => {
            let number = if random.once_in(2) { random.below(130) as u32 } else { random.draw() as u32 };
            return with_word(&file, at / 4, number);
        }
    }
    file
}
