//! The exported functions of crate bridge_season. A list passes as pointer and length.
use reference::season::Season;
use reference::telemetry::{Divided, Sites};

mod exported {
    unsafe extern "C" {
        pub fn bridge_crane_week(days: *const u32, days_len: usize, w: u32, visits: *mut u64, day: *mut u32) -> u32;
        pub fn bridge_season_days(
            ranks: u32,
            owners: *const u32,
            owners_len: usize,
            counts: *const u32,
            counts_len: usize,
            days: *const u32,
            days_len: usize,
            visits: *mut u32,
            visits_len: usize,
        ) -> u32;
        pub fn bridge_telemetry(
            offsets: *const u32,
            offsets_len: usize,
            neighbors: *const u32,
            neighbors_len: usize,
            ranks: u32,
            owners: *const u32,
            owners_len: usize,
            ratios: *mut [f64; 2],
        ) -> u32;
        pub fn bridge_sites_balance(
            sizes: *const u32,
            sizes_len: usize,
            offsets: *const u32,
            offsets_len: usize,
            neighbors: *const u32,
            neighbors_len: usize,
            owners: *const u32,
            owners_len: usize,
            totals: *mut [u64; 4],
        ) -> u32;
    }
}
use exported::*;

/// What stands beside the outputs, and in them before the call: it is not 0, so that a refusal is seen to write them.
const WIDE_GUARD: u64 = 0x5afe_5afe_5afe_5afe;
pub const DAY_GUARD: u32 = 0x5afe_5afe;
/// Among ratios: no number.
const RATIO_GUARD: u64 = 0x7ff8_5afe_5afe_5afe;

/// The number, and the visits and the day, which are lent out of the middle of guard numbers.
pub fn crane_week(days: &[u32], w: u32) -> (u32, (u64, u32)) {
    let (mut visits, mut day) = ([WIDE_GUARD; 5], [DAY_GUARD; 5]);
    let (vp, dp) = (visits.as_mut_ptr().wrapping_add(2), day.as_mut_ptr().wrapping_add(2));
    // SAFETY: the archive's function demands nothing and reads only the list, which is passed with its length and outlives the
    // call; what it writes are the two numbers in the middle.
    let number = unsafe { bridge_crane_week(days.as_ptr(), days.len(), w, vp, dp) };
    let guarded = [0, 1, 3, 4].iter().all(|&i| visits[i] == WIDE_GUARD && day[i] == DAY_GUARD);
    assert!(guarded, "something is written beside the answer for {} visits, w {w}", days.len());
    (number, (visits[2], day[2]))
}

/// The number; the days of the visits are written.
pub fn season_days(ranks: u32, owners: &[u32], counts: &[u32], days: &[u32], visits: &mut [u32]) -> u32 {
    let [(op, on), (cp, cn), (dp, dn)] = [owners, counts, days].map(|list| (list.as_ptr(), list.len()));
    // SAFETY: the archive's function demands nothing and reads only the lists, which are passed with their lengths and outlive the
    // call; what it writes is the last one, which is lent to be written.
    unsafe { bridge_season_days(ranks, op, on, cp, cn, dp, dn, visits.as_mut_ptr(), visits.len()) }
}

/// The list in the middle of a longer one: beside it stand its first two and its last two numbers once more, as if it went on.
fn longer(list: &[u32]) -> Vec<u32> {
    let two = |from: usize| [from, from + 1].map(|i| list.get(i).copied().unwrap_or(0));
    [&two(0), list, &two(list.len().saturating_sub(2))].concat()
}

/// What `call` answers on these lists, each of which is lent out of the middle of a longer one and must stay.
fn stay<const N: usize>(given: [&Vec<u32>; N], call: impl FnOnce([&[u32]; N]) -> u32) -> u32 {
    let lists = given.map(|list| longer(list));
    let number = call(lists.each_ref().map(|list| &list[2..list.len() - 2]));
    let lengths = given.map(Vec::len);
    assert!(
        given.map(|list| longer(list)) == lists,
        "a list that is lent to be read is written, of lengths {lengths:?}"
    );
    number
}

/// The number and all that is lent to write the days to, which is guard numbers before the call. What is not lent to be written must
/// stay.
pub fn season_days_guarded(season: &Season) -> (u32, Vec<u32>) {
    let Season { ranks, owners, counts, days, lent } = season;
    let mut visits = vec![DAY_GUARD; lent + 4];
    let number = stay([owners, counts, days], |[owners, counts, days]| {
        season_days(*ranks, owners, counts, days, &mut visits[2..2 + lent])
    });
    let guarded = [0, 1, lent + 2, lent + 3].iter().all(|&i| visits[i] == DAY_GUARD);
    assert!(guarded, "something is written beside the days, {lent} of which are lent");
    (number, visits[2..2 + lent].to_vec())
}

/// The number; the two ratios are written.
pub fn telemetry(divided: &Divided, ratios: &mut [f64; 2]) -> u32 {
    let Divided { site, ranks, owners } = divided;
    telemetry_of([&site.offsets, &site.neighbors, owners], *ranks, ratios)
}

fn telemetry_of(lists: [&[u32]; 3], ranks: u32, ratios: &mut [f64; 2]) -> u32 {
    let [(op, on), (np, nn), (rp, rn)] = lists.map(|list| (list.as_ptr(), list.len()));
    // SAFETY: the archive's function demands nothing and reads only the lists, which are passed with their lengths and outlive the
    // call; what it writes are the two ratios.
    unsafe { bridge_telemetry(op, on, np, nn, ranks, rp, rn, ratios) }
}

/// The number and the bits of the two ratios, which are lent out of the middle of guard numbers, as every list is out of the middle
/// of a longer one. The lists must stay.
pub fn telemetry_guarded(divided: &Divided) -> (u32, [u64; 2]) {
    let Divided { site, ranks, owners } = divided;
    let given = [&site.offsets, &site.neighbors, owners];
    let mut ratios = [[f64::from_bits(RATIO_GUARD); 2]; 3];
    let number = stay(given, |lists| telemetry_of(lists, *ranks, &mut ratios[1]));
    let [before, bits, after] = ratios.map(|two| two.map(f64::to_bits));
    assert_eq!([before, after], [[RATIO_GUARD; 2]; 2], "something is written beside the ratios");
    (number, bits)
}

/// The number; the four totals are written.
pub fn sites_balance(lent: &Sites, totals: &mut [u64; 4]) -> u32 {
    let Sites { sizes, offsets, neighbors, owners } = lent;
    sites_balance_of([sizes, offsets, neighbors, owners], totals)
}

fn sites_balance_of(lists: [&[u32]; 4], totals: &mut [u64; 4]) -> u32 {
    let [(sp, sn), (op, on), (np, nn), (rp, rn)] = lists.map(|list| (list.as_ptr(), list.len()));
    // SAFETY: as in `telemetry_of`; what is written are the four totals.
    unsafe { bridge_sites_balance(sp, sn, op, on, np, nn, rp, rn, totals) }
}

/// The number and the four totals, lent as in `telemetry_guarded`.
pub fn sites_balance_guarded(lent: &Sites) -> (u32, [u64; 4]) {
    let Sites { sizes, offsets, neighbors, owners } = lent;
    let mut totals = [[WIDE_GUARD; 4]; 3];
    let number = stay([sizes, offsets, neighbors, owners], |lists| sites_balance_of(lists, &mut totals[1]));
    assert_eq!([totals[0], totals[2]], [[WIDE_GUARD; 4]; 2], "something is written beside the totals");
    (number, totals[1])
}
