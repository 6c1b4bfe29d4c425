//! `oracle/run` and `oracle/record` build this and call it with the oracle's
//! folder and their own arguments.

#![forbid(unsafe_code)]

use calls::make::calls;
use drive::compare::{self, Side};
use drive::scripts::{in_domain, whole_language};
use drive::{record, slips, walk};
use std::env;
use std::fmt;
use std::fs;
use std::ops::RangeInclusive;
use std::path::{Path, PathBuf};
use std::process::ExitCode;
use std::sync::atomic::{AtomicU64, Ordering::Relaxed};
use std::thread;

const USAGE: &str = "oracle/run [--program PATH] [--seeds A-B] [--jobs N] | --slips";
const SEEDS: RangeInclusive<u64> = 1..=5_000;
const PROGRAM_SEEDS: RangeInclusive<u64> = 1..=1_000;
/// L4's three rules differ from 5 pairs on.
const WALK_FANOUTS: [usize; 3] = [3, 4, 5];

struct Plan {
    program: Option<PathBuf>,
    seeds: RangeInclusive<u64>,
    /// At the same time.
    jobs: usize,
}

fn main() -> ExitCode {
    let arguments: Vec<String> = env::args().skip(1).collect();
    let arguments: Vec<&str> = arguments.iter().map(String::as_str).collect();
    let good = match arguments[..] {
        [oracle, "--slips"] => slips::run(Path::new(oracle)),
        [oracle, "--record"] => record::run(Path::new(oracle)),
        [_, ref words @ ..] => plan(words).map(|plan| match &plan.program {
            Some(program) => a_program(&plan, program),
            None => reference_and_sled(&plan),
        }),
        [] => Err(USAGE.to_string()),
    };
    match good {
        Ok(true) => ExitCode::SUCCESS,
        Ok(false) => ExitCode::FAILURE,
        Err(message) => {
            eprintln!("{message}");
            ExitCode::FAILURE
        }
    }
}

fn plan(words: &[&str]) -> Result<Plan, String> {
    let (mut program, mut given) = (None, None);
    let mut jobs = thread::available_parallelism().map_or(1, usize::from);
    for two in words.chunks(2) {
        match *two {
            ["--program", path] => {
                let found = fs::canonicalize(path).map_err(|error| format!("{path}: {error}"));
                program = Some(found?);
            }
            ["--seeds", range] => given = Some(seeds(range).ok_or(USAGE)?),
            ["--jobs", count] => jobs = count.parse().map_err(|_| USAGE)?,
            _ => return Err(USAGE.to_string()),
        }
    }
    let usual = program.as_ref().map_or(SEEDS, |_| PROGRAM_SEEDS);
    Ok(Plan {
        program,
        seeds: given.unwrap_or(usual),
        jobs: jobs.max(1),
    })
}

fn seeds(range: &str) -> Option<RangeInclusive<u64>> {
    let (from, to) = range.split_once('-')?;
    let seeds = from.parse().ok()?..=to.parse().ok()?;
    (!seeds.is_empty()).then_some(seeds)
}

#[derive(Default)]
struct Tally {
    scripts: usize,
    lines: usize,
    calls: usize,
    states: usize,
    steps: usize,
    differences: usize,
}

impl fmt::Display for Tally {
    fn fmt(&self, out: &mut fmt::Formatter<'_>) -> fmt::Result {
        let counts = [
            (self.scripts, "scripts"),
            (self.lines, "lines"),
            (self.calls, "calls"),
            (self.states, "states"),
            (self.steps, "steps"),
        ];
        for (count, what) in counts.into_iter().filter(|(count, _)| *count > 0) {
            write!(out, "{count} {what}, ")?;
        }
        write!(out, "{} differences", self.differences)
    }
}

impl Tally {
    fn join(&mut self, other: &Tally) {
        self.scripts += other.scripts;
        self.lines += other.lines;
        self.calls += other.calls;
        self.states += other.states;
        self.steps += other.steps;
        self.differences += other.differences;
    }

    /// A part of the comparison: the numbers shared out among the jobs. After a
    /// difference no further one is begun.
    fn part(
        &mut self,
        jobs: usize,
        numbers: RangeInclusive<u64>,
        compare: impl Fn(u64) -> Result<Tally, String> + Sync,
    ) {
        let (next, end) = (AtomicU64::new(*numbers.start()), *numbers.end());
        let job = || {
            let mut sum = Tally::default();
            loop {
                let number = next.fetch_add(1, Relaxed);
                if number > end {
                    return sum;
                }
                match compare(number) {
                    Ok(compared) => sum.join(&compared),
                    Err(report) => {
                        print!("{report}");
                        sum.differences += 1;
                        next.store(end + 1, Relaxed);
                    }
                }
            }
        };
        thread::scope(|scope| {
            let jobs: Vec<_> = (0..jobs).map(|_| scope.spawn(&job)).collect();
            for job in jobs {
                self.join(&job.join().expect("no panic"));
            }
        });
    }

    /// Whether all was the same.
    fn end(&self) -> bool {
        println!("{self}");
        self.differences == 0
    }
}

fn script(title: &str, script: &[u8], right: Side, other: Side) -> Result<Tally, String> {
    let lines = compare::scripts(title, script, right, other)?;
    Ok(Tally {
        scripts: 1,
        lines,
        ..Tally::default()
    })
}

fn reference_and_sled(plan: &Plan) -> bool {
    let mut tally = Tally::default();
    tally.part(plan.jobs, plan.seeds.clone(), |seed| {
        let title = format!("in-domain script of seed {seed}");
        script(&title, &in_domain(seed), Side::Sled, Side::Reference)
    });
    tally.part(plan.jobs, plan.seeds.clone(), |seed| {
        let calls = compare::calls(&format!("calls of seed {seed}"), calls(seed, true))?;
        Ok(Tally {
            calls,
            ..Tally::default()
        })
    });
    let walks = 0..=WALK_FANOUTS.len() as u64 - 1;
    tally.part(plan.jobs, walks, |at| {
        let walked = walk::walk(WALK_FANOUTS[at as usize])?;
        Ok(Tally {
            states: walked.states,
            steps: walked.steps,
            ..Tally::default()
        })
    });
    tally.end()
}

fn a_program(plan: &Plan, path: &Path) -> bool {
    let program = Side::Program(path);
    let mut tally = Tally::default();
    tally.part(plan.jobs, plan.seeds.clone(), |seed| {
        let title = format!("script of seed {seed}");
        script(&title, &whole_language(seed), Side::Reference, program)
    });
    tally.part(plan.jobs, plan.seeds.clone(), |seed| {
        let title = format!("in-domain script of seed {seed}");
        script(&title, &in_domain(seed), Side::Sled, program)
    });
    tally.end()
}
