//! `api [--seeds A-B] [--damages N] [--reads N] [--inserts N] [--mixed N]
//! [--grown N] [--jobs N]`: runs the archive's functions beside the reference. The
//! last line counts what was compared; status 1 where something differs.

#![forbid(unsafe_code)]

use api::STACK;
use api::sides::Archive;
use api::tally::Tally;
use api::{cases, creations, damages, fresh, reading, times, writing};
use std::env;
use std::ops::RangeInclusive;
use std::process::ExitCode;
use std::thread::{self, Scope, ScopedJoinHandle};
use std::time::Duration;

const USAGE: &str = "api [--seeds A-B] [--damages N] [--reads N] [--inserts N] [--mixed N] \
    [--grown N] [--jobs N]";
/// `len` and `clear` run on this part of the number of damages.
const FRESH_PART: usize = 10;
/// These run on such parts of the number of indexes read, for they ask more of
/// each.
const RANGES_PART: usize = 2;
const OUTPUTS_PART: usize = 8;
const WALKS_PART: usize = 4;
/// Damaged buffers are changed, and inserts replayed, on such parts of the
/// number of random inserts.
const DAMAGED_PART: usize = 20;
const REPLAYS_PART: usize = 500;
/// A full arena is emptied and filled again so often, in each order.
const REFILLS: usize = 100;
const TIMED: [usize; 3] = [40, 2_000, 20_000];

struct Plan {
    seeds: RangeInclusive<u64>,
    /// Over all seeds.
    damages: usize,
    /// Indexes read, over all seeds.
    reads: usize,
    /// Random inserts, over all seeds.
    inserts: usize,
    /// Random calls of every kind, over all seeds.
    mixed: usize,
    /// Pairs of the index that timed inserts grow, and timed removes empty.
    grown: usize,
    /// At the same time.
    jobs: usize,
}

fn main() -> ExitCode {
    let arguments: Vec<String> = env::args().skip(1).collect();
    let Some(plan) = plan(&arguments) else {
        eprintln!("{USAGE}");
        return ExitCode::FAILURE;
    };
    let same = thread::scope(|scope| on_small_stack(scope, || run(&plan)).join());
    match same {
        Ok(true) => ExitCode::SUCCESS,
        _ => ExitCode::FAILURE,
    }
}

/// So that a call of the archive has no more than this on its own machine too.
fn on_small_stack<'scope, T: Send + 'scope>(
    scope: &'scope Scope<'scope, '_>,
    work: impl FnOnce() -> T + Send + 'scope,
) -> ScopedJoinHandle<'scope, T> {
    let thread = thread::Builder::new().stack_size(STACK);
    thread.spawn_scoped(scope, work).expect("a thread starts")
}

fn plan(arguments: &[String]) -> Option<Plan> {
    let mut plan = Plan {
        seeds: 1..=20,
        damages: 100_000,
        reads: 1_000,
        inserts: 100_000,
        mixed: 100_000,
        grown: 2_000,
        jobs: thread::available_parallelism().map_or(1, usize::from),
    };
    let mut words = arguments.iter();
    while let Some(word) = words.next() {
        let value = words.next()?;
        match word.as_str() {
            "--seeds" => {
                let (from, to) = value.split_once('-')?;
                plan.seeds = from.parse().ok()?..=to.parse().ok()?;
            }
            "--damages" => plan.damages = value.parse().ok()?,
            "--reads" => plan.reads = value.parse().ok()?,
            "--inserts" => plan.inserts = value.parse().ok()?,
            "--mixed" => plan.mixed = value.parse().ok()?,
            "--grown" => plan.grown = value.parse().ok()?,
            "--jobs" => plan.jobs = value.parse().ok()?,
            _ => return None,
        }
    }
    (!plan.seeds.is_empty() && plan.jobs > 0).then_some(plan)
}

fn run(plan: &Plan) -> bool {
    let mut all = All {
        jobs: plan.jobs,
        ..All::default()
    };
    changes_and_tests(plan, &mut all);
    reads(plan, &mut all);
    writes(plan, &mut all);
    // What crashes has no time.
    if all.differences == 0 {
        print_times(*plan.seeds.start());
        print_changes(plan.grown, *plan.seeds.start());
    }
    println!(
        "{} calls, {} of them on damaged buffers, {} differences",
        all.calls, all.damaged, all.differences
    );
    all.differences == 0
}

fn changes_and_tests(plan: &Plan, all: &mut All) {
    let seeds = || plan.seeds.clone();
    let a_seed = plan.damages.div_ceil(seeds().count());
    let first = *plan.seeds.start();
    all.part("named cases", seeds(), |seed| cases::run(&Archive, seed));
    all.part("damages", seeds(), |seed| {
        damages::run(&Archive, seed, a_seed)
    });
    all.part("creations", first..=first, |seed| {
        creations::run(&Archive, seed)
    });
    all.part("len and clear", seeds(), |seed| {
        fresh::run(&Archive, seed, a_seed.div_ceil(FRESH_PART))
    });
}

fn reads(plan: &Plan, all: &mut All) {
    let seeds = || plan.seeds.clone();
    let a_seed = plan.reads.div_ceil(seeds().count());
    let first = *plan.seeds.start();
    all.part("examples and traps", seeds(), |seed| {
        reading::examples::run(&Archive, seed)
    });
    all.part("lookups", seeds(), |seed| {
        reading::lookups::run(&Archive, seed, a_seed)
    });
    all.part("ranges", seeds(), |seed| {
        reading::ranges::run(&Archive, seed, a_seed.div_ceil(RANGES_PART))
    });
    all.part("outputs", seeds(), |seed| {
        reading::outputs::run(&Archive, seed, a_seed.div_ceil(OUTPUTS_PART))
    });
    all.part("walks", seeds(), |seed| {
        reading::walks::run(&Archive, seed, a_seed.div_ceil(WALKS_PART))
    });
    all.part("leaf lists", seeds(), |seed| {
        reading::leaf_lists::run(&Archive, seed, a_seed)
    });
    all.part("prefixes", seeds(), |seed| {
        reading::prefixes::run(&Archive, seed, a_seed)
    });
    all.part("reads of named cases", first..=first, |seed| {
        reading::damaged::run_cases(&Archive, seed)
    });
    all.part("reads of damages", seeds(), |seed| {
        reading::damaged::run(&Archive, seed, a_seed)
    });
}

fn writes(plan: &Plan, all: &mut All) {
    let seeds = || plan.seeds.clone();
    let a_seed = plan.inserts.div_ceil(seeds().count());
    let first = *plan.seeds.start();
    all.part("changes of examples and traps", seeds(), |seed| {
        writing::examples::run(&Archive, &Archive, seed)
    });
    all.part("inserts", seeds(), |seed| {
        writing::runs::run(&Archive, &Archive, seed, a_seed)
    });
    all.part("splits at every place", first..=first, |seed| {
        writing::splits::run(&Archive, &Archive, seed)
    });
    all.part("replays in full arenas", seeds(), |seed| {
        writing::replays::run(&Archive, &Archive, seed, a_seed.div_ceil(REPLAYS_PART))
    });
    all.part("merges at every place", first..=first, |seed| {
        writing::merges::run(&Archive, &Archive, seed)
    });
    all.part("refills of a full arena", first..=first, |seed| {
        writing::refills::run(&Archive, &Archive, seed, REFILLS)
    });
    let mixed = plan.mixed.div_ceil(seeds().count());
    all.part("mixed calls", seeds(), |seed| {
        writing::mixed::run(&Archive, &Archive, &Archive, seed, mixed)
    });
    all.part("changes of named cases", first..=first, |seed| {
        writing::damaged::run_cases(&Archive, seed)
    });
    all.part("changes of damages", seeds(), |seed| {
        writing::damaged::run(&Archive, seed, a_seed.div_ceil(DAMAGED_PART))
    });
}

fn print_times(seed: u64) {
    for pairs in TIMED {
        for timed in times::run(pairs, seed) {
            let (call, leaves, time) = (timed.call, timed.leaves, micro(timed.time));
            println!("{call}, {pairs} pairs in {leaves} leaves: {time} µs");
        }
    }
    println!("scan_prefix: {} µs", micro(times::run_prefix()));
}

/// A change begins with the test of W. Its time less that of the test by
/// itself, on the same index right before, is the last number.
fn print_changes(pairs: usize, seed: u64) {
    for order in times::ORDERS {
        let [grown, emptied] = times::run_changes(order, pairs, seed);
        let leaves = grown.header.leaves;
        for (calls, series) in [("inserts up to", grown), ("removes from", emptied)] {
            let each = |all: Duration| micro(all / pairs as u32);
            let (whole, test) = (each(series.calls), each(series.tests));
            let besides = each(series.calls.saturating_sub(series.tests));
            println!(
                "{pairs} {order} {calls} {leaves} leaves: each {whole} µs, test of W {test} µs, besides {besides} µs"
            );
        }
    }
}

fn micro(time: Duration) -> String {
    format!("{:.2}", time.as_secs_f64() * 1e6)
}

/// What each seed gives, the seeds shared out among the jobs.
fn of_each<T: Send>(seeds: Vec<u64>, jobs: usize, run: &(impl Fn(u64) -> T + Sync)) -> Vec<T> {
    thread::scope(|scope| {
        let shares = seeds.chunks(seeds.len().div_ceil(jobs));
        let work = |share: &[u64]| share.iter().map(|seed| run(*seed)).collect::<Vec<T>>();
        let threads: Vec<_> = shares
            .map(|share| on_small_stack(scope, move || work(share)))
            .collect();
        let given = threads.into_iter().map(|thread| thread.join());
        given.flat_map(|given| given.expect("no panic")).collect()
    })
}

#[derive(Default)]
struct All {
    jobs: usize,
    calls: usize,
    damaged: usize,
    differences: usize,
}

impl All {
    /// Each seed goes up to its first difference.
    fn part(
        &mut self,
        name: &str,
        seeds: RangeInclusive<u64>,
        run: impl Fn(u64) -> Result<Tally, String> + Sync,
    ) {
        let mut sum = Tally::default();
        for result in of_each(seeds.collect(), self.jobs, &run) {
            match result {
                Ok(tally) => sum.join(&tally),
                Err(report) => {
                    print!("{name}: {report}");
                    self.differences += 1;
                }
            }
        }
        println!("{name}: {sum}");
        self.calls += sum.calls();
        self.damaged += sum.damaged();
    }
}
