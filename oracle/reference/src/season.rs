//! Request P11, season windows, read from its sentences alone: the Rust has none. A rank has windows of days, each open from its
//! first day to the one before its end day, and visits its vertices by number, one on an open day: the j-th on the j-th of them.
use crate::answers;
use crate::crane::LAST_DAY;

/// The most windows that a rank may have.
pub const MAX_WINDOWS: u32 = 32;

/// What is lent for a season: an owner for each vertex, for each rank how many windows it has, and their first and end days in
/// turn, rank by rank; and so many numbers to write the days of the visits to.
#[derive(Clone, Debug)]
pub struct Season {
    pub ranks: u32,
    pub owners: Vec<u32>,
    pub counts: Vec<u32>,
    pub days: Vec<u32>,
    pub lent: usize,
}

impl Season {
    /// From the first and end days of each rank, with a number lent for each vertex.
    pub fn new(owners: Vec<u32>, windows: &[Vec<u32>]) -> Self {
        let counts = windows.iter().map(|days| days.len() as u32 / 2).collect();
        let lent = owners.len();
        Season { ranks: windows.len() as u32, owners, counts, days: windows.concat(), lent }
    }
}

/// A window's first and end day.
pub type Window = [u32; 2];

/// Whether one rank's windows are as the request has them: not too many, none empty or past the last day, in rising sequence.
fn good(windows: &[Window]) -> bool {
    let each = windows.iter().all(|&[first, end]| first < end && end <= LAST_DAY);
    let rising = windows.is_sorted_by(|[_, end], [first, _]| end <= first);
    windows.len() <= MAX_WINDOWS as usize && each && rising
}

/// Each rank's windows, taken off the days one rank after another; none where 19 refuses them.
pub fn windows(season: &Season) -> Option<Vec<&[Window]>> {
    let (mut left, half) = season.days.as_chunks::<2>();
    let mut ranks = Vec::new();
    for &count in &season.counts {
        let (windows, others) = left.split_at_checked(count as usize)?;
        ranks.push(windows);
        left = others;
    }
    let lengths = ranks.len() == season.ranks as usize && left.is_empty() && half.is_empty();
    (lengths && ranks.iter().all(|windows| good(windows))).then_some(ranks)
}

/// The open days, one after another: they are marked among all days.
fn open_days(windows: &[Window]) -> impl Iterator<Item = u32> + use<> {
    let mut open = [false; LAST_DAY as usize + 1];
    for &[first, end] in windows {
        open[first as usize..end as usize].fill(true);
    }
    (0..=LAST_DAY).filter(move |&day| open[day as usize])
}

/// The days of the visits or 20, of windows that 19 does not refuse: for each vertex, those before it that have its owner are
/// counted, and its rank's open days are gone through up to that place.
pub fn plain(owners: &[u32], windows: &[&[Window]]) -> Result<Vec<u32>, u32> {
    let day = |v: usize| {
        let before = owners[..v].iter().filter(|&&owner| owner == owners[v]).count();
        open_days(windows[owners[v] as usize]).nth(before).ok_or(20)
    };
    (0..owners.len()).map(day).collect()
}

/// The same at once for all vertices, which is cheap for many: each takes the next open day of its rank.
pub fn in_turn(owners: &[u32], windows: &[&[Window]]) -> Result<Vec<u32>, u32> {
    let mut open: Vec<_> = windows.iter().map(|windows| open_days(windows)).collect();
    owners.iter().map(|&owner| open[owner as usize].next().ok_or(20)).collect()
}

/// The days of the visits, or the refusal: those of `from_owners`, 5, 19 and 20, in this order.
pub fn season_days(season: &Season) -> Result<Vec<u32>, u32> {
    let Season { ranks, owners, lent, .. } = season;
    let number = answers::from_owners(*ranks, owners);
    if number != 0 {
        return Err(number);
    }
    if *lent < owners.len() {
        return Err(5);
    }
    let Some(windows) = windows(season) else { return Err(19) };
    if owners.len() <= 16 { plain(owners, &windows) } else { in_turn(owners, &windows) }
}
