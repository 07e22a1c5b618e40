//! Rule 9 and requests P1 and P7, read from documents 01 and 02 alone: the Rust has no link file.
use crate::answers::{Options, workloads_cause};
use crate::sites::{Question, Site};
use std::collections::HashSet;

/// "The program allows n ≤ 64, e ≤ 128, k ≤ 8, max_levels ≤ 12": the header's first four numbers.
pub const LIMITS: [u32; 4] = [64, 128, 8, 12];

/// An accepted file: n, e, k and the four options, its site's lists, and a workload for each vertex.
pub struct Contents {
    pub header: [u32; 7],
    pub site: Site,
    pub workloads: Vec<u32>,
}

impl Contents {
    /// The division that the file asks: in a file both numbers of request P9 "keep their defaults".
    pub fn question(self) -> Question {
        let [_, _, ranks, options @ ..] = self.header;
        Question::new(self.site, ranks, Options::of(options.map(u64::from))).weighed(self.workloads)
    }
}

/// The file's numbers, "u32 little-endian"; up to three bytes at its end are left out.
pub fn numbers(file: &[u8]) -> Vec<u32> {
    file.chunks_exact(4).map(|four| u32::from_le_bytes(four.try_into().expect("four bytes"))).collect()
}

/// The two lengths of a file with so many vertices and links: without workloads, and with them.
pub fn lengths(n: usize, e: usize) -> [usize; 2] {
    [28 + 8 * e, 28 + 8 * e + 4 * n]
}

/// The check: a refusal, or what an accepted file says.
pub fn check(file: &[u8]) -> Result<Contents, u32> {
    let numbers = numbers(file);
    let Some((header, rest)) = numbers.split_first_chunk::<7>() else { return Err(10) };
    if header.iter().zip(LIMITS).any(|(&number, limit)| number > limit) {
        return Err(3);
    }
    let (n, e) = (header[0] as usize, header[1] as usize);
    if !lengths(n, e).contains(&file.len()) {
        return Err(10);
    }
    let (ends, carried) = rest.split_at(2 * e);
    let (low, high) = ends.split_at(e);
    let links: Vec<_> = low.iter().zip(high).map(|(&l, &h)| (l as usize, h as usize)).collect();
    if !links.iter().all(|&(l, h)| l < h && h < n) || !links.is_sorted_by(|a, b| a < b) {
        return Err(10);
    }
    let workloads = if carried.is_empty() { vec![1; n] } else { carried.to_vec() };
    if workloads_cause(&workloads, n as u64) != 0 {
        return Err(13);
    }
    // "a lone turbine where n is 2 or more": all ends are below n, so that n different ones leave no vertex out
    if n >= 2 && ends.iter().collect::<HashSet<_>>().len() < n {
        return Err(14);
    }
    Ok(Contents { header: *header, site: Site::new(n, &links), workloads })
}

/// The reader, with so many offsets, neighbors and workloads lent.
pub fn read(file: &[u8], [offsets, neighbors, workloads]: [usize; 3]) -> Result<Contents, u32> {
    let contents = check(file)?;
    let (n, e) = (contents.header[0] as usize, contents.header[1] as usize);
    if offsets < n + 1 || neighbors < 2 * e || workloads < n {
        return Err(5);
    }
    Ok(contents)
}

/// A file of this header, these links and these workloads, good or not; the header's second number is set to that of the links.
/// Without workloads it is the shorter file.
pub fn write(header: [u32; 7], links: &[(u32, u32)], workloads: &[u32]) -> Vec<u8> {
    let mut numbers = header.to_vec();
    numbers[1] = links.len() as u32;
    numbers.extend(links.iter().map(|l| l.0));
    numbers.extend(links.iter().map(|l| l.1));
    numbers.extend(workloads);
    numbers.iter().flat_map(|x| x.to_le_bytes()).collect()
}
