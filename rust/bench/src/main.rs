//! Times the proved library against two plain engines, and writes docs/BENCH.md and docs/bench.svg.

use bench::{only, page, plot, reading_table, readings, table, Effort, Figures};
use differential::command;
use std::path::Path;
use std::process::ExitCode;
use std::{fs, io};

const HELP: &str = "\
Times the proved library against two engines in plain Rust, on the same records in one run, and compares every reply.
Writes docs/BENCH.md and docs/bench.svg.

  bench [--quick] [--only WORDS | --opl]

  --quick        a few passes, with rough times; prints them and writes nothing
  --only WORDS   the streams alone whose names have these words in them; prints them and writes nothing
  --opl          the readers of OPL/XML alone; prints their times and writes nothing
  --help         this text

Build it with --release, and with the proved library's archive in its place: tools/bench does both. Without the
archive --quick runs the plain engines alone.

Exit status: 0 measured; 1 two engines disagree, no stream has the words, or a file could not be written; 2 wrong use.
";

struct Options {
    effort: Effort,
    only: Option<String>,
    opl: bool,
}

impl Options {
    fn writes(&self) -> bool {
        self.effort != Effort::QUICK && self.only.is_none() && !self.opl
    }
}

fn options(arguments: &[String]) -> Result<Options, String> {
    let mut options = Options {
        effort: Effort::FULL,
        only: None,
        opl: false,
    };
    let mut rest = arguments.iter();
    while let Some(argument) = rest.next() {
        match argument.as_str() {
            "--quick" => options.effort = Effort::QUICK,
            "--opl" => options.opl = true,
            "--only" => {
                let words = rest.next().ok_or("--only takes words of a stream's name")?;
                options.only = Some(words.clone());
            }
            other => return Err(format!("no such option: {other:?}")),
        }
    }
    if options.writes() {
        fit_to_write()?;
    }
    Ok(options)
}

fn fit_to_write() -> Result<(), String> {
    if cfg!(debug_assertions) {
        return Err(String::from(
            "times of an unoptimized build say nothing: build with --release",
        ));
    }
    if !cfg!(mishantral_engine) {
        return Err(String::from(
            "the proved library is not linked: tools/bench builds it first",
        ));
    }
    Ok(())
}

fn write(figures: &Figures, effort: Effort) -> io::Result<()> {
    let docs = Path::new(env!("CARGO_MANIFEST_DIR")).join("../../docs");
    fs::write(docs.join("BENCH.md"), page(figures, effort))?;
    fs::write(docs.join("bench.svg"), plot(figures))
}

fn print(figures: &Figures) {
    let growth = [&figures.entries, &figures.permissions];
    print!("{}", table(&figures.main));
    growth
        .iter()
        .for_each(|growth| print!("\n{}", table(&growth.lines)));
    print!("\n{}", table(&figures.kinds));
    for further in [&figures.piles, &figures.checked] {
        if !further.is_empty() {
            print!("\n{}", table(further));
        }
    }
    print!("\n{}", reading_table(&figures.readings));
    if let Some(stack) = &figures.stack {
        println!(
            "\nstack: load {} bytes, requests {} bytes",
            stack.load, stack.requests
        );
    }
}

fn run(options: &Options) -> Result<(), String> {
    let effort = options.effort;
    if options.opl {
        print!("{}", reading_table(&readings(effort)?));
        return Ok(());
    }
    if let Some(words) = &options.only {
        print!("{}", table(&only(words, effort)?));
        return Ok(());
    }
    let figures = Figures::measure(effort)?;
    print(&figures);
    if options.writes() {
        write(&figures, effort).map_err(|why| format!("docs/ cannot be written: {why}"))?;
        println!("\nwritten: docs/BENCH.md, docs/bench.svg");
    }
    Ok(())
}

fn main() -> ExitCode {
    command("bench", HELP, options, run)
}
