//! Measures what is compared in turns: in every turn a sample of each, so that all of them meet the same states of the machine. The time of each is the median of
//! its samples, and a ratio the median of the turns' ratios.
//!
//! Two variables of the environment say how: TURNS_SECONDS, for how long at least, and TURNS_ONLY, the names of those that are measured, between commas.

use std::fmt::Display;
use std::hint::black_box;
use std::path::PathBuf;
use std::time::{Duration, Instant};
use std::{env, fs};

/// What a sample of the quickest lasts at least, with what it sets up: many calls of it, and yet few samples are interrupted.
const SAMPLE: Duration = Duration::from_micros(100);

/// The least number of turns.
const TURNS: usize = 50;

/// What is measured: its name, and how long so many calls take, without what is set up for them.
pub struct Routine<'a> {
    name: &'static str,
    sample: Box<dyn FnMut(u32) -> Duration + 'a>,
}

impl<'a> Routine<'a> {
    /// Calls that follow each other, timed together.
    pub fn repeated<O>(name: &'static str, mut call: impl FnMut() -> O + 'a) -> Self {
        let sample = move |calls| {
            let start = Instant::now();
            for _ in 0..calls {
                black_box(call());
            }
            start.elapsed()
        };
        Self { name, sample: Box::new(sample) }
    }

    /// Calls that are timed one by one, each on what is made right before it.
    pub fn fresh<I, O>(
        name: &'static str,
        make: impl Fn() -> I + 'a,
        call: impl Fn(&mut I) -> O + 'a,
    ) -> Self {
        Self::timed(name, move || {
            let mut input = black_box(make());
            let start = Instant::now();
            let output = call(&mut input);
            let spent = start.elapsed();
            black_box((output, input));
            spent
        })
    }

    /// Calls that tell by themselves how long they took.
    pub fn timed(name: &'static str, call: impl Fn() -> Duration + 'a) -> Self {
        Self { name, sample: Box::new(move |calls| (0..calls).map(|_| call()).sum()) }
    }

    /// The nanoseconds of a call, in a row of them. Before the row one is not counted: it finds what the others left behind.
    fn sample(&mut self, calls: u32) -> f64 {
        (self.sample)(1);
        nanoseconds((self.sample)(calls)) / f64::from(calls)
    }

    /// How long a row of calls lasts, with what it sets up.
    fn lasts(&mut self, calls: u32) -> Duration {
        let start = Instant::now();
        (self.sample)(calls);
        start.elapsed()
    }
}

/// A time as the figures have it.
pub fn nanoseconds(time: Duration) -> f64 {
    time.as_secs_f64() * 1e9
}

/// For how long something is measured at least.
pub fn least_time() -> Duration {
    let seconds =
        env::var("TURNS_SECONDS").map_or(1.0, |seconds| seconds.parse().expect("TURNS_SECONDS is a number"));
    Duration::from_secs_f64(seconds)
}

/// Whether one of this name is to be measured.
fn wanted(name: &str) -> bool {
    env::var("TURNS_ONLY").map_or(true, |only| only.split(',').any(|one| one == name))
}

/// How many calls a sample has, the same for all: the quickest lasts long enough.
fn calls_in_a_sample(routines: &mut [Routine<'_>]) -> u32 {
    let mut enough = |calls| routines.iter_mut().all(|routine| routine.lasts(calls) >= SAMPLE);
    (0..u32::BITS).map(|power| 1 << power).find(|calls| enough(*calls)).expect("calls that take time")
}

/// A sample of each, in their order; every second turn takes them backwards, so that each follows different ones.
fn turn(routines: &mut [Routine<'_>], calls: u32, backwards: bool) -> Vec<f64> {
    if backwards {
        let mut samples: Vec<_> = routines.iter_mut().rev().map(|routine| routine.sample(calls)).collect();
        samples.reverse();
        return samples;
    }
    routines.iter_mut().map(|routine| routine.sample(calls)).collect()
}

fn median(figures: impl Iterator<Item = f64>) -> f64 {
    let mut figures: Vec<_> = figures.collect();
    figures.sort_by(f64::total_cmp);
    (figures[(figures.len() - 1) / 2] + figures[figures.len() / 2]) / 2.0
}

/// Measures routines in turns, and keeps the median of each and of each one's ratio to each other.
pub fn measure(group: &str, value: impl Display, routines: Vec<Routine<'_>>) {
    let mut routines: Vec<_> = routines.into_iter().filter(|routine| wanted(routine.name)).collect();
    let calls = calls_in_a_sample(&mut routines);
    let (start, least) = (Instant::now(), least_time());
    let mut turns = Vec::new();
    while turns.len() < TURNS || start.elapsed() < least {
        let backwards = turns.len() % 2 == 1;
        turns.push(turn(&mut routines, calls, backwards));
    }
    println!("{group}/{value}: {} turns, {calls} calls in a sample", turns.len());
    for (i, one) in routines.iter().enumerate() {
        keep(group, one.name, &value, "median", median(turns.iter().map(|samples| samples[i])));
        for (j, other) in routines.iter().enumerate().filter(|(j, _)| *j != i) {
            let name = format!("{}-by-{}", one.name, other.name);
            keep(group, &name, &value, "median", median(turns.iter().map(|samples| samples[i] / samples[j])));
        }
    }
}

/// Shows an estimate, and writes it as criterion does, in the folder that CRITERION_HOME names.
pub fn keep(group: &str, function: &str, value: impl Display, estimate: &str, figure: f64) {
    println!("{group}/{function}/{value}: {estimate} {figure:.3}");
    if let Some(home) = env::var_os("CRITERION_HOME") {
        let folder = PathBuf::from(home).join(group).join(function).join(value.to_string()).join("new");
        fs::create_dir_all(&folder).expect("the folder of an estimate");
        let text = format!("{{\"{estimate}\":{{\"point_estimate\":{figure}}}}}\n");
        fs::write(folder.join("estimates.json"), text).expect("the file of an estimate");
    }
}
