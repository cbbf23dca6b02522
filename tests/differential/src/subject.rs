//! A subject is one part of the library that is compared. To add one, write
//! a file with a `Subject` and put it into the list in `main`.

use std::ops::RangeInclusive;
use std::time::{Duration, Instant};

use oracle::refusal::meaning;

use crate::crash;
use crate::prng::Prng;
use crate::report::{Mismatch, Tally};

/// The refusals that have an offset (document 02, order 3).
const PLACED: RangeInclusive<u8> = 3..=12;

pub trait Subject {
    fn name(&self) -> &'static str;

    /// What the tally counts, and what it counts as extra.
    fn units(&self) -> (&'static str, &'static str);

    /// The refusals that the random cases have to meet.
    fn needed(&self) -> &'static [u8];

    /// What no input may meet, if one did; it is asked of all inputs, the fixed
    /// ones too.
    fn excess(&self, _met: &Tally) -> Option<String> {
        None
    }

    /// What else the random cases have to show, if they did not.
    fn lacks(&self, _random: &Tally) -> Option<String> {
        None
    }

    /// Inputs that come in every run.
    fn fixed(&self, tally: &mut Tally) -> Result<(), Mismatch>;

    /// One random case.
    fn case(&self, rng: &mut Prng, tally: &mut Tally) -> Result<(), Mismatch>;
}

/// How much of a subject is to be run.
pub struct Load {
    pub seed: u64,
    pub cases: u64,
    /// Time to go on for after these cases.
    pub time: Duration,
    /// Run this one case only.
    pub only: Option<u64>,
}

/// Runs a subject and prints its line. False if something was wrong.
pub fn run(subject: &dyn Subject, load: &Load) -> bool {
    let started = Instant::now();
    let name = subject.name();

    let mut fixed = Tally::new();
    let mut random = Tally::new();
    let mut cases = 0;
    if let Some(case) = load.only {
        if !run_case(subject, load.seed, case, &mut random) {
            return false;
        }
        cases = 1;
    } else {
        crash::case(name, crash::FIXED);
        if let Err(mismatch) = subject.fixed(&mut fixed) {
            print_mismatch(name, &mismatch, "a fixed input");
            return false;
        }
        while cases < load.cases || started.elapsed() < load.time {
            if !run_case(subject, load.seed, cases, &mut random) {
                return false;
            }
            cases += 1;
        }
    }

    let (unit, extra) = subject.units();
    let mut line = format!("{name}: {cases} cases with {} {unit}", random.total());
    if random.extra > 0 {
        line += &format!(" and {} {extra}", random.extra);
    }
    for (times, what) in random.besides() {
        if times > 0 {
            line += &format!(", {times} {what}");
        }
    }
    line += &format!(
        ", {} fixed {unit}, no mismatch; accepted {}",
        fixed.total(),
        random.met(0)
    );
    for number in 1..=u8::MAX {
        if random.met(number) > 0 {
            line += &format!(", refusal {number}: {}", random.met(number));
            let in_definitions = random.definitions.refused[usize::from(number)];
            if in_definitions > 0 {
                line += &format!(" ({in_definitions} in DEFINE lines)");
            }
        }
    }
    println!("{line} ({:.1} s)", started.elapsed().as_secs_f64());

    let mut complete = true;
    for what in [&fixed, &random]
        .into_iter()
        .filter_map(|met| subject.excess(met))
    {
        println!("{name}: {what}");
        complete = false;
    }
    if load.only.is_none() {
        for &number in subject.needed() {
            let what = meaning(number);
            if random.met(number) == 0 {
                println!("{name}: refusal {number} ({what}) was never met");
                complete = false;
            } else if PLACED.contains(&number) && random.met_with_offset(number) == 0 {
                println!("{name}: refusal {number} ({what}) was never met with an offset above 0");
                complete = false;
            }
        }
        if let Some(what) = subject.lacks(&random) {
            println!("{name}: {what}");
            complete = false;
        }
    }
    complete
}

fn run_case(subject: &dyn Subject, seed: u64, case: u64, tally: &mut Tally) -> bool {
    let name = subject.name();
    crash::case(name, case);
    let mut rng = Prng::for_case(seed, name, case);
    match subject.case(&mut rng, tally) {
        Ok(()) => true,
        Err(mismatch) => {
            print_mismatch(name, &mismatch, &format!("seed {seed}, case {case}"));
            false
        }
    }
}

fn print_mismatch(subject: &str, mismatch: &Mismatch, place: &str) {
    println!("{subject}: MISMATCH at {place}: {}", mismatch.what);
    println!("  input:   {}", mismatch.input);
    println!("  oracle:  {}", mismatch.oracle);
    println!("  library: {}", mismatch.library);
}
