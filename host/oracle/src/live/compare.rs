//! The comparison: a number of seeds, each a fresh node on both sides and a sequence of steps.

use std::num::NonZeroUsize;
use std::sync::atomic::{AtomicU64, Ordering::Relaxed};
use std::thread;

use crate::list::List;
use crate::live::coverage::Coverage;
use crate::live::fault::Fault;
use crate::live::plan::Plan;
use crate::live::rng::Rng;
use crate::live::run::{Difference, Run};
use crate::live::stack;

/// Which sequences are run.
pub struct Sequences {
    pub first: u64,
    pub seeds: u64,
    pub steps: u64,
    pub fault: Option<Fault>,
}

/// Runs the sequences, a thread for each core; stops at a difference and gives the one of the lowest seed, with its seed.
pub fn compare(sequences: &Sequences, coverage: &mut Coverage) -> Result<(), (u64, Difference)> {
    let threads = thread::available_parallelism().map_or(1, NonZeroUsize::get);
    let differs = AtomicU64::new(u64::MAX);
    let shares: Vec<Share> = thread::scope(|scope| {
        let differs = &differs;
        let running: Vec<_> =
            (0..threads).map(|nth| scope.spawn(move || share(sequences, nth, threads, differs))).collect();
        running.into_iter().map(|thread| thread.join().expect("no sequence panics")).collect()
    });
    let mut found = Vec::new();
    for (met, difference) in shares {
        coverage.join(met);
        found.extend(difference);
    }
    found.into_iter().min_by_key(|(seed, _)| *seed).map_or(Ok(()), Err)
}

/// What a thread has met, and the difference that it has found.
type Share = (Coverage, Option<(u64, Difference)>);

/// Every so many seeds, from the nth on, up to a difference; `differs` is the lowest seed that is known to have one.
fn share(sequences: &Sequences, nth: usize, threads: usize, differs: &AtomicU64) -> Share {
    let mut coverage = Coverage::default();
    let end = sequences.first + sequences.seeds;
    for seed in (sequences.first + nth as u64..end).step_by(threads) {
        if seed > differs.load(Relaxed) {
            break;
        }
        let hours = Some(Rng::new(!seed));
        if let Err(difference) = one(seed, sequences.steps, hours, &mut coverage, sequences.fault) {
            differs.fetch_min(seed, Relaxed);
            return (coverage, Some((seed, difference)));
        }
    }
    (coverage, None)
}

/// Runs one seed and gives its list. Hours come from numbers of their own, so that with none of them the steps
/// are the same, and all hours are open.
pub fn one(
    seed: u64,
    steps: u64,
    hours: Option<Rng>,
    coverage: &mut Coverage,
    fault: Option<Fault>,
) -> Result<List, Difference> {
    let mut rng = Rng::new(seed);
    let (setup, clock) = Plan::start(&mut rng);
    let mut plan = Plan::new(rng, stack::address(&setup.key));
    let mut run = Run::new(setup, clock, coverage, fault)?;
    if let Some(hours) = hours {
        run = run.with_hours(hours);
    }
    run.step(plan.first())?;
    for _ in 0..steps {
        let step = plan.next(&run.tally, run.clock);
        let sent = run.step(step)?;
        plan.sent(sent);
    }
    Ok(run.into_list())
}
