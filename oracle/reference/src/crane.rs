//! Request P12, crane weeks, read from its sentences alone: the Rust has none. Visits on rising days, repeats allowed, and blocks
//! of w days that begin on a visit day: the most visits in one of them, and the earliest such day. A block may pass the last day.

/// The most visits that a list may have.
pub const MAX_VISITS: usize = 16_384;

/// The last day that a visit may be on.
pub const LAST_DAY: u32 = 3_660;

/// The most days that a block may have.
pub const MAX_BLOCK: u32 = 366;

/// Whether 21 refuses the list or the block.
pub fn refused(days: &[u32], w: u32) -> bool {
    let falls = || days.windows(2).any(|two| two[1] < two[0]);
    w == 0 || w > MAX_BLOCK || days.len() > MAX_VISITS || days.iter().any(|&day| day > LAST_DAY) || falls()
}

/// The most visits and the earliest day, of what is not refused: for each visit, those in the w days from it are counted.
pub fn plain(days: &[u32], w: u32) -> (u64, u32) {
    let mut most = (0, 0);
    for &from in days {
        let visits = days.iter().filter(|&&day| from <= day && day < from + w).count() as u64;
        if visits > most.0 || visits == most.0 && from < most.1 {
            most = (visits, from);
        }
    }
    most
}

/// The same from a tally of the visits on each day, which is cheap for long lists: for each day that has some, the tallies of the w
/// days from it are added up.
pub fn by_day(days: &[u32], w: u32) -> (u64, u32) {
    let mut tally = [0u32; LAST_DAY as usize + 1];
    days.iter().for_each(|&day| tally[day as usize] += 1);
    let mut most = (0, 0);
    for from in (0..tally.len()).filter(|&day| tally[day] > 0) {
        let end = tally.len().min(from + w as usize);
        let visits = tally[from..end].iter().sum::<u32>().into();
        if visits > most.0 {
            most = (visits, from as u32);
        }
    }
    most
}

/// The visits and the day, or 21.
pub fn crane_week(days: &[u32], w: u32) -> Result<(u64, u32), u32> {
    if refused(days, w) {
        return Err(21);
    }
    Ok(if days.len() <= 64 { plain(days, w) } else { by_day(days, w) })
}
