//! The requests of crates/replay: the samples, sites that tell each slip from the oracle in force, and random sites.
use reference::answers::{Asked, oracle_partition, partition};
use reference::link_file::{check, write as file_of};
use reference::listing::listing;
use reference::random::Random;
use reference::sites::{self, Question};
use slips::SLIPS;
use std::fmt::Write;
use std::path::Path;

/// The copies of the oracle in force with a slip each: build.rs makes them.
mod slips {
    use super::Slip;

    include!(concat!(env!("OUT_DIR"), "/copies.rs"));
}

/// What goes wrong, whether the sites that tell it have workloads, and the copy with it.
struct Slip {
    name: &'static str,
    what: &'static str,
    weighed: bool,
    asked: Asked,
}

/// How many sites tell a slip.
const TELLING: usize = 3;
/// How many random sites have workloads of 1, and how many others.
const RANDOM: usize = 300;
const RANDOM_WEIGHED: usize = 150;

/// Each slip's questions and the random ones are drawn from a beginning of their own: a slip more changes no other site. So are the
/// links that lone vertices get, which change no site without one.
struct Drawing {
    questions: Random,
    links: Random,
}

impl Drawing {
    fn new(name: &str) -> Self {
        let number = |seed: u64, byte: u8| seed.wrapping_mul(0x0100_0000_01b3) ^ u64::from(byte);
        let from = |name: &str| Random::new(name.bytes().fold(1, number));
        Drawing { questions: from(name), links: from(&format!("{name}, linked up")) }
    }

    /// A question as it comes: it may have lone vertices, as a link file may not.
    fn draw(&mut self, size: usize, weighed: bool) -> Question {
        let draw = if weighed { sites::some_weighed_question } else { sites::some_question };
        draw(&mut self.questions, size)
    }

    fn link_up(&mut self, question: Question) -> Question {
        Question { site: sites::linked_up(&mut self.links, &question.site), ..question }
    }

    /// A question that a link file can hold.
    fn linked(&mut self, size: usize, weighed: bool) -> Question {
        let question = self.draw(size, weighed);
        self.link_up(question)
    }

    /// The same, but about one in ten has lone vertices, for refusal 14: half of those that come with them.
    fn mixed(&mut self, size: usize, weighed: bool) -> Question {
        let question = self.draw(size, weighed);
        let kept = !question.site.lone().is_empty() && self.links.once_in(2);
        if kept { question } else { self.link_up(question) }
    }
}

/// The file that asks it, without workloads where all are 1; the list length and the pass factor are the defaults, as in any file.
fn file(question: &Question) -> Vec<u8> {
    let Question { site, workloads, ranks, options } = question;
    let mut header = [site.vertices() as u32, 0, *ranks, 0, 0, 0, 0];
    header[3..].copy_from_slice(&options.filed().map(|x| x as u32));
    let links: Vec<_> = site.links().iter().map(|&(a, b)| (a as u32, b as u32)).collect();
    let ones = workloads.iter().all(|&w| w == 1);
    file_of(header, &links, if ones { &[] } else { workloads })
}

/// Whether a copy with a slip answers otherwise than it should.
fn tells(question: &Question, slip: &Slip) -> bool {
    oracle_partition(slip.asked, question) != partition(question)
}

/// The first questions that tell the slip: small sites come first.
fn telling(slip: &Slip) -> Vec<Question> {
    let mut drawing = Drawing::new(slip.name);
    let mut found = Vec::new();
    for (size, tries) in
        [(4, 2_000), (6, 5_000), (9, 20_000), (14, 50_000), (24, 100_000), (40, 200_000), (64, 400_000)]
    {
        for _ in 0..tries {
            let question = drawing.linked(size, slip.weighed);
            if tells(&question, slip) {
                found.push(question);
                if found.len() == TELLING {
                    return found;
                }
            }
        }
    }
    assert!(!found.is_empty(), "no site tells the slip {}", slip.name);
    found
}

/// The listings of stored requests, each of them behind its length. Each slip must be told by one of them.
pub fn answers(mut stdin: &[u8]) -> String {
    let mut files = Vec::new();
    while let Some((head, rest)) = stdin.split_first_chunk::<4>() {
        let (file, later) = rest.split_at(u32::from_le_bytes(*head) as usize);
        files.push(file);
        stdin = later;
    }
    assert!(stdin.is_empty(), "a request cut short");
    let questions: Vec<_> = files.iter().filter_map(|file| check(file).ok()).map(|c| c.question()).collect();
    for slip in SLIPS {
        assert!(questions.iter().any(|q| tells(q, slip)), "no request tells the slip {}", slip.name);
    }
    files.iter().map(|file| listing(file)).collect()
}

pub fn write(samples: Vec<(String, Vec<u8>)>, out: &Path) {
    let mut files = Vec::new();
    let mut text = String::from(
        "# The requests of crates/replay\n\n`oracle/replay.sh` writes this page, `crates/replay/stdin` and `crates/replay/stdout`: requests by their place in the list, from 1 on, and what each is for. The answers are those of the oracle in force: the Rust with what document 02 asks (`reference/changes.rs`), and unchanged where no request can change the answer. A slip is a copy of it with a mistake (`slips.rs`), and each site named for it is one on which that copy answers otherwise. A request is a link file, so the list length and the pass factor of request P9 are its defaults, 8 and 4. No turbine of a file may be lone (request P7), so the lone turbines of a drawn site are linked up; only some of the random sites keep theirs, for refusal 14.\n\n| requests | for |\n|---|---|\n",
    );
    for (name, file) in samples {
        files.push(file);
        writeln!(text, "| {} | sample {name} |", files.len()).expect("a string");
    }
    for slip in SLIPS {
        let Slip { name, what, .. } = slip;
        let from = files.len() + 1;
        let questions = telling(slip);
        files.extend(questions.iter().map(file));
        let sizes: Vec<_> = questions.iter().map(|q| format!("n {} k {}", q.site.vertices(), q.ranks)).collect();
        writeln!(text, "| {from} to {} | slip `{name}`: {what} ({}) |", files.len(), sizes.join(", "))
            .expect("a string");
    }
    for (name, count, weighed) in
        [("random sites", RANDOM, false), ("random sites with workloads", RANDOM_WEIGHED, true)]
    {
        let (before, mut drawing) = (files.len(), Drawing::new(name));
        files.extend((0..count).map(|i| file(&drawing.mixed(if i % 10 == 0 { 64 } else { 20 }, weighed))));
        let lone = files[before..].iter().filter(|file| check(file).is_err_and(|number| number == 14)).count();
        let (from, to) = (before + 1, files.len());
        writeln!(text, "| {from} to {to} | {name} of all shapes, {lone} of them with lone turbines |")
            .expect("a string");
    }

    store(&files, out);
    std::fs::write(out.join("REQUESTS.md"), text).expect("a file written");
}

/// Random requests, more than are stored: of eight, four without workloads, three with them, and one with a number changed. Lone
/// vertices are as rare among all of them as among the stored ones.
pub fn write_many(count: usize, out: &Path) {
    let mut drawing = Drawing::new("many");
    let files: Vec<_> = (0..count)
        .map(|i| {
            let file = file(&drawing.mixed(if i % 10 == 0 { 64 } else { 20 }, i % 8 >= 4));
            if i % 8 == 7 { changed(&mut drawing.questions, file) } else { file }
        })
        .collect();
    store(&files, out);
}

/// The file with one of its numbers changed.
fn changed(random: &mut Random, mut file: Vec<u8>) -> Vec<u8> {
    let at = 4 * random.index(file.len() / 4);
    let number = random.between(0, 70) as u32;
    file[at..at + 4].copy_from_slice(&number.to_le_bytes());
    file
}

/// The requests, each behind its length, and their listings.
fn store(files: &[Vec<u8>], out: &Path) {
    let stdin: Vec<u8> = files.iter().flat_map(|f| [&(f.len() as u32).to_le_bytes()[..], f].concat()).collect();
    let stdout: String = files.iter().map(|f| listing(f)).collect();
    std::fs::write(out.join("stdin"), stdin).expect("a file written");
    std::fs::write(out.join("stdout"), stdout).expect("a file written");
}
