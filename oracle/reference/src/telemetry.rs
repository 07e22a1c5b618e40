//! Request P13: how evenly a site's vertices and entries lie on its ranks. One site's two ratios are those of the unchanged Rust's
//! `partition_telemetry_assignment`, after the request's tests. The sums over several sites, and the site with the largest share,
//! are read from the request's sentences alone: the Rust has none.
use crate::answers::{self, MAX_NEIGHBORS, MAX_VERTICES};
use crate::listing::half;
use crate::sites::Site;
use crate::{PartitionAssignment, PartitionTelemetry, partition_telemetry_assignment};

/// The most sites that may be added up.
pub const MAX_SITES: usize = 16;

/// A site and an owner for each of its vertices.
#[derive(Clone, Debug)]
pub struct Divided {
    pub site: Site,
    pub ranks: u32,
    pub owners: Vec<u32>,
}

impl Divided {
    /// n, m, k and the owner list's length.
    pub fn sizes(&self) -> [u32; 4] {
        let [n, m, length] = [self.site.vertices(), self.site.neighbors.len(), self.owners.len()].map(|x| x as u32);
        [n, m, self.ranks, length]
    }

    /// 0, or 3 by n and m, 4, what `from_owners` refuses, or 18, in this order.
    fn cause(&self) -> u32 {
        let Divided { site: Site { offsets, neighbors }, ranks, owners } = self;
        let n = answers::vertex_count(offsets);
        if n > MAX_VERTICES || neighbors.len() > MAX_NEIGHBORS {
            return 3;
        }
        let lists = answers::lists_cause(offsets, neighbors);
        if lists != 0 {
            return lists;
        }
        let number = answers::from_owners(*ranks, owners);
        if number == 0 && owners.len() != n { 18 } else { number }
    }

    /// What the unchanged Rust tells, or the refusal.
    fn told(&self) -> Result<PartitionTelemetry, u32> {
        let number = self.cause();
        if number != 0 {
            return Err(number);
        }
        let assignment = PartitionAssignment::from_owners(self.ranks, self.owners.clone()).expect("good owners");
        Ok(partition_telemetry_assignment(&answers::matrix(&self.site), &assignment).expect("an owner for each vertex"))
    }
}

/// The bits of the owned ratio and of that of the entries, or the refusal.
pub fn telemetry(divided: &Divided) -> Result<[u64; 2], u32> {
    divided.told().map(|told| [told.owned_dof_imbalance, told.local_nnz_imbalance].map(f64::to_bits))
}

/// What is lent for several sites: n, m, k and the owner list's length of each, and their lists one after another.
#[derive(Clone, Debug)]
pub struct Sites {
    pub sizes: Vec<u32>,
    pub offsets: Vec<u32>,
    pub neighbors: Vec<u32>,
    pub owners: Vec<u32>,
}

impl Sites {
    pub fn new(sites: &[Divided]) -> Self {
        let together = |list: fn(&Divided) -> &[u32]| sites.iter().flat_map(list).copied().collect();
        Sites {
            sizes: sites.iter().flat_map(Divided::sizes).collect(),
            offsets: together(|divided| &divided.site.offsets),
            neighbors: together(|divided| &divided.site.neighbors),
            owners: together(|divided| &divided.owners),
        }
    }
}

/// A site's vertices and ranks, and the most vertices that a rank owns: its share is most × k / n.
struct Share {
    n: u128,
    k: u128,
    most: u128,
}

impl Share {
    fn new(divided: &Divided) -> Self {
        let mut owners = divided.owners.clone();
        owners.sort_unstable();
        let most = owners.chunk_by(|a, b| a == b).map(<[u32]>::len).max().expect("an owner");
        Share { n: owners.len() as u128, k: divided.ranks.into(), most: most as u128 }
    }

    fn at_least(&self, other: &Share) -> bool {
        self.most * self.k * other.n >= other.most * other.k * self.n
    }
}

/// The next site, taken off the slices: n + 1 offsets, m neighbors and the owner list; none where one of the slices ends before.
fn next(left: &mut [&[u32]; 3], [n, m, ranks, length]: [u32; 4]) -> Option<Divided> {
    let [offsets, neighbors, owners] = left;
    let offsets = offsets.split_off(..n as usize + 1)?.to_vec();
    let neighbors = neighbors.split_off(..m as usize)?.to_vec();
    let owners = owners.split_off(..length as usize)?.to_vec();
    Some(Divided { site: Site { offsets, neighbors }, ranks, owners })
}

/// The vertices, the ranks and the cut links of all sites, and the first site whose share is at least that of every one; or the
/// refusal: 22, or site by site 5 and those of one site.
pub fn sites_balance(lent: &Sites) -> Result<[u64; 4], u32> {
    let (sizes, rest) = lent.sizes.as_chunks::<4>();
    if sizes.is_empty() || sizes.len() > MAX_SITES || !rest.is_empty() {
        return Err(22);
    }
    let mut left = [&lent.offsets, &lent.neighbors, &lent.owners].map(Vec::as_slice);
    let (mut shares, mut sums) = (Vec::new(), [0; 3]);
    for &size in sizes {
        let divided = next(&mut left, size).ok_or(5u32)?;
        let told = divided.told()?;
        let cut = half(told.cut_nnz as u64, &divided.site, &divided.owners);
        let share = Share::new(&divided);
        assert_eq!(share.most, told.max_owned_dofs as u128, "the most vertices of a rank, of {divided:?}");
        for (sum, number) in sums.iter_mut().zip([share.n as u64, divided.ranks.into(), cut]) {
            *sum += number;
        }
        shares.push(share);
    }
    let largest = |share: &Share| shares.iter().all(|other| share.at_least(other));
    let site = shares.iter().position(largest).expect("a largest share");
    Ok([sums[0], sums[1], sums[2], site as u64])
}
