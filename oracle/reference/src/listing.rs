//! What document 01's program `share` prints, by its own example: the listing of the Rust's division, or `refused ` and the number.
//! Request P3 changes one number of it: behind `cut` stands half of the Rust's count.
use crate::answers::partition;
use crate::link_file::check;
use crate::sites::Site;

/// The text for a file's bytes.
pub fn listing(file: &[u8]) -> String {
    match answer(file) {
        Ok(text) => text,
        Err(number) => format!("refused {number}\n"),
    }
}

/// The cut's place among the stats.
const CUT: usize = 6;

/// Half of the cut, which must be whole, and "the number of links whose ends have different owners", counted.
pub(crate) fn half(cut: u64, site: &Site, owners: &[u32]) -> u64 {
    assert_eq!(cut % 2, 0, "the cut of {site:?} by {owners:?} has no whole half");
    let links = site.links().iter().filter(|&&(a, b)| owners[a] != owners[b]).count() as u64;
    assert_eq!(cut / 2, links, "half of the cut of {site:?} by {owners:?} is not its cut links");
    links
}

fn answer(file: &[u8]) -> Result<String, u32> {
    let question = check(file)?.question();
    let (owners, mut stats) = partition(&question)?;
    stats[CUT] = half(stats[CUT], &question.site, &owners);
    let mut text = format!("turbines {} crews {}\n", owners.len(), question.ranks);
    for (v, owner) in owners.iter().enumerate() {
        text += &format!("{v} {owner}\n");
    }
    let words = ["levels", "coarsest", "pairs", "singles", "restarts", "moves", "cut", "volume"];
    let stats: Vec<_> = words.iter().zip(stats).map(|(word, number)| format!("{word} {number}")).collect();
    Ok(text + &stats.join(" ") + "\n")
}
