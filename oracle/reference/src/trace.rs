//! A division by the stages of the oracle in force, called one by one in rule 8's order: what each of them made. `compare` sees
//! to it that the end is that of the Rust's own driver.
use crate::answers::Options;
use crate::in_force::stages::{self, Coarsened, Rows};
use crate::sites::Question;

#[derive(Clone, Debug)]
pub struct Trace {
    pub cap: usize,
    pub floor: usize,
    /// The steps that were kept, and the one that did not shrink, if there was one.
    pub coarsened: Vec<Coarsened>,
    pub discarded: Option<Coarsened>,
    /// On the coarsest level; none where fewer groups than ranks are left.
    pub seeds: Vec<usize>,
    pub growth: Result<Grown, u32>,
    /// The coarsest level first.
    pub moved: Vec<Moved>,
    pub swapped: Option<Moved>,
    pub owners: Result<Vec<u32>, u32>,
}

#[derive(Clone, Debug)]
pub struct Grown {
    pub owners: Vec<u32>,
    pub restarts: usize,
}

#[derive(Clone, Debug)]
pub struct Moved {
    /// 0 is the finest.
    pub level: usize,
    pub start: Vec<u32>,
    pub end: Vec<u32>,
    pub count: usize,
}

/// The call is past refusal 5.
pub fn trace(question: &Question) -> Trace {
    let &Question { ranks, options, .. } = question;
    let (t, passes) = (options.imbalance_per_mille as u32, options.refinement_passes as usize);
    let workloads: Vec<usize> = question.workloads.iter().map(|&w| w as usize).collect();
    let total = workloads.iter().sum();
    let mut trace = Trace {
        cap: stages::load_cap(total, ranks, t),
        floor: stages::minimum_load(total, ranks, t),
        coarsened: Vec::new(),
        discarded: None,
        seeds: Vec::new(),
        growth: Err(0),
        moved: Vec::new(),
        swapped: None,
        owners: Err(0),
    };
    let levels = trace.coarsen((question.site.rows(), workloads), ranks, options);
    let (coarsest, weights) = levels.last().expect("the finest level at least");
    trace.seeds = stages::farthest_seeds(coarsest, ranks).unwrap_or_default();
    trace.growth = stages::weighted_multisource_partition(coarsest, weights, ranks, t)
        .map(|(owners, restarts)| Grown { owners, restarts });
    trace.owners = trace.growth.as_ref().map(|grown| grown.owners.clone()).map_err(|number| *number);

    for (level, (rows, weights)) in levels.iter().enumerate().rev() {
        let Ok(mut start) = trace.owners.clone() else { return trace };
        if let Some(step) = trace.coarsened.get(level) {
            start = step.fine_to_coarse.iter().map(|&group| start[group]).collect();
        }
        let moved = stages::refine_by_cut(rows, weights, ranks, &start, t, passes);
        trace.owners = moved.map(|(end, count)| {
            trace.moved.push(Moved { level, start, end: end.clone(), count });
            end
        });
    }
    let Ok(start) = trace.owners.clone() else { return trace };
    let (rows, weights) = &levels[0];
    let [length, factor] = options.swapping().map(|x| x as usize);
    let swapped =
        stages::refine_fine_pair_swaps(rows, weights, ranks, &start, t, passes.saturating_mul(factor), length);
    trace.owners = swapped.map(|(end, count)| {
        trace.swapped = Some(Moved { level: 0, start, end: end.clone(), count });
        end
    });
    trace
}

impl Trace {
    /// Coarsens as far as rule 8 says; answers every level's rows and weights, the finest first.
    fn coarsen(&mut self, finest: (Rows, Vec<usize>), ranks: u32, options: Options) -> Vec<(Rows, Vec<usize>)> {
        let stop = u64::from(ranks).saturating_mul(options.coarse_vertices_per_rank).max(u64::from(ranks));
        let mut levels = vec![finest];
        loop {
            let (rows, weights) = levels.last().expect("the finest level at least");
            if self.coarsened.len() as u64 >= options.max_levels || rows.len() as u64 <= stop {
                return levels;
            }
            let step = stages::coarsen_once_cached(rows, weights);
            if step.rows.len() >= rows.len() {
                self.discarded = Some(step);
                return levels;
            }
            levels.push((step.rows.clone(), step.weights.clone()));
            self.coarsened.push(step);
        }
    }

    /// Levels, coarsest, pairs, singletons, restarts, moves: what the stats say without the owners at the end.
    pub fn counts(&self, n: usize) -> [u64; 6] {
        let sum = |of: fn(&Coarsened) -> usize| self.coarsened.iter().map(of).sum::<usize>();
        let moves = self.moved.iter().chain(&self.swapped).map(|m| m.count).sum::<usize>();
        [
            self.coarsened.len(),
            self.coarsened.last().map_or(n, |step| step.rows.len()),
            sum(|step| step.matched_pairs),
            sum(|step| step.singleton_aggregates),
            self.growth.as_ref().map_or(0, |grown| grown.restarts),
            moves,
        ]
        .map(|x| x as u64)
    }
}
