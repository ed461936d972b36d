//! Compares all engines over random cases, and reports which pairs of kind and reply came up.

use differential::{
    command, compare, Case, Coverage, Failure, Panel, CASES, PROVED, PROVED_LOWER, SEED,
};
use std::process::ExitCode;

const HELP: &str = "\
Compares engines over random policies and requests: the plain engine with two ledgers, a slow one, and the
proved library where its archive was found at build time (MISHANTRAL_ARCHIVE, or target/native/libmishantral.a).
The same cases are then put to the lower part of each alone, the proved one where its archive was found
(MISHANTRAL_LOWER_ARCHIVE, or target/native/libmishantral_lower.a).

  differential [--seed N] [--cases N] [--first N] [--coverage] [--proved]

  --seed N      another seed than 1
  --cases N     another number of cases than 400
  --first N     begin with this case, to see one again
  --proved      both proved libraries must take part: that one is not linked is a failure
  --coverage    print how often each kind was answered with each reply, and with which places of rules

Exit status: 0 all agree; 1 two engines differ, and a small case that shows it is printed, or --proved finds one missing; 2 wrong use.
";

struct Options {
    seed: u64,
    first: u64,
    cases: u64,
    coverage: bool,
    proved: bool,
}

fn options(arguments: &[String]) -> Result<Options, String> {
    let mut options = Options {
        seed: SEED,
        first: 0,
        cases: CASES,
        coverage: false,
        proved: false,
    };
    let mut rest = arguments.iter();
    while let Some(argument) = rest.next() {
        let mut number = || {
            let given = rest.next().and_then(|text| text.parse().ok());
            given.ok_or(format!("{argument} takes a number"))
        };
        match argument.as_str() {
            "--seed" => options.seed = number()?,
            "--first" => options.first = number()?,
            "--cases" => options.cases = number()?,
            "--coverage" => options.coverage = true,
            "--proved" => options.proved = true,
            other => return Err(format!("no such option: {other:?}")),
        }
    }
    Ok(options)
}

fn run(options: &Options) -> Result<Coverage, String> {
    let (panel, lower) = (Panel::all(), Panel::lower());
    let mut coverage = Coverage::default();
    for number in options.first..options.first.saturating_add(options.cases) {
        let case = Case::random(options.seed, number);
        let fill = number % 20 == 0;
        let report = |failure: Box<Failure>| {
            let again = format!("--seed {} --first {number} --cases 1", options.seed);
            format!("{}differs in case {number}: {again}", failure.report())
        };
        coverage.join(&compare(&panel, &case, fill).map_err(report)?);
        compare(&lower, &case, false).map_err(report)?;
        garbage(options.seed, number)?;
        links(options.seed, number)?;
    }
    Ok(coverage)
}

#[cfg(mishantral_engine)]
use differential::{garbage, links};

/// Without the library there is no state to damage.
#[cfg(not(mishantral_engine))]
fn garbage(_seed: u64, _number: u64) -> Result<(), String> {
    Ok(())
}

#[cfg(not(mishantral_engine))]
fn links(_seed: u64, _number: u64) -> Result<(), String> {
    Ok(())
}

fn tell(options: &Options) -> Result<(), String> {
    println!("engines: {}", Panel::all().names().join(", "));
    println!("lower part alone: {}", Panel::lower().names().join(", "));
    for (linked, what) in [(PROVED, "library"), (PROVED_LOWER, "lower part")] {
        if linked {
            continue;
        }
        let missing =
            format!("the proved {what} is not linked: its archive was not found at build time");
        if options.proved {
            return Err(missing);
        }
        println!("{missing}");
    }
    let coverage = run(options)?;
    if options.coverage {
        print!("{}", coverage.table());
        println!("not seen: {:?}", coverage.missing());
        println!("places not seen: {:?}", coverage.missing_places());
        println!("piles not seen: {:?}", coverage.missing_piles());
        println!("questions not seen: {:?}", coverage.missing_questions());
        println!("figures not seen: {:?}", coverage.missing_figures());
        println!("of files not seen: {:?}", coverage.missing_files());
    }
    println!("{} cases of seed {} agree", options.cases, options.seed);
    Ok(())
}

fn main() -> ExitCode {
    command("differential", HELP, options, tell)
}
