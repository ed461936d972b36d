//! Compares readers of OPL/XML over random and damaged texts, or times them.

use opl::Sections;
use opl_differential::{readers, readers_of, run_sections, Reader, Texts};
use std::process::{Command, ExitCode};
use std::time::Instant;

const HELP: &str = "\
Compares readers of OPL/XML: the plain one, a slow one that reads content models from the DTD, and the proved one where the
library is linked.

  opl-differential [--seed N] [--texts N] [--all-sections]
  opl-differential --time

  --seed N    another seed than 1
  --texts N   another number of texts than 100000
  --all-sections
              the readers of all sections that the engine can hold, over texts that have them
  --time      the readers' times on texts of about 2 KiB, 64 KiB and 1 MiB, and libxml2's where there is xmllint, as it
              calls for each element and keeps none; build it with --release

Exit status: 0 all agree; 1 two readers differ, and small texts that show it are printed; 2 wrong use.
";

struct Options {
    seed: u64,
    texts: u64,
    sections: Sections,
    time: bool,
}

fn options(arguments: &[String]) -> Result<Options, String> {
    let mut options = Options {
        seed: 1,
        texts: 100_000,
        sections: Sections::Asked,
        time: false,
    };
    let mut rest = arguments.iter();
    while let Some(argument) = rest.next() {
        let mut number = || {
            let given = rest.next().and_then(|text| text.parse().ok());
            given.ok_or(format!("{argument} takes a number"))
        };
        match argument.as_str() {
            "--seed" => options.seed = number()?,
            "--texts" => options.texts = number()?,
            "--all-sections" => options.sections = Sections::All,
            "--time" => options.time = true,
            other => return Err(format!("no such option: {other:?}")),
        }
    }
    Ok(options)
}

/// The shortest of many readings of a text, in nanoseconds a byte.
fn nanoseconds(reader: &Reader, texts: &Texts) -> f64 {
    let bytes = texts.policy.len() + texts.tasks.len();
    let mut output = vec![0; 1 << 20];
    let mut least = f64::MAX;
    for _ in 0..(1 << 26) / bytes {
        let start = Instant::now();
        let answer = (reader.translate)(&texts.policy, &texts.tasks, &mut output);
        least = least.min(start.elapsed().as_nanos() as f64);
        assert_eq!(answer.reply, opl::ACCEPTED, "an orderly text is accepted");
    }
    least / bytes as f64
}

/// The shortest of some times that xmllint reports for a hundred readings, in nanoseconds a byte.
fn xmllint(texts: &Texts) -> Option<f64> {
    let file = std::env::temp_dir().join(format!("opl-{}.xml", std::process::id()));
    std::fs::write(&file, &texts.policy).ok()?;
    let once = || {
        let options = ["--sax", "--noout", "--timing", "--repeat"];
        let output = Command::new("xmllint")
            .args(options)
            .arg(&file)
            .output()
            .ok()?;
        let said = String::from_utf8(output.stderr).ok()?;
        let milliseconds = said.split("took ").nth(1)?.split(' ').next()?;
        milliseconds.parse::<f64>().ok()
    };
    let least = (0..5).filter_map(|_| once()).min_by(f64::total_cmp);
    let _ = std::fs::remove_file(&file);
    Some(least? * 1e6 / 100.0 / texts.policy.len() as f64)
}

fn time() {
    for bytes in [2 << 10, 64 << 10, 1 << 20] {
        let texts = Texts::orderly(bytes);
        println!("{} bytes, ns a byte:", texts.policy.len());
        for reader in readers().iter().filter(|reader| !reader.slow) {
            println!("{:>10} {:.2}", reader.name, nanoseconds(reader, &texts));
        }
        match xmllint(&texts) {
            Some(least) => println!("{:>10} {least:.1}", "libxml2"),
            None => println!("   libxml2 took no part"),
        }
    }
}

fn main() -> ExitCode {
    let arguments: Vec<String> = std::env::args().skip(1).collect();
    if arguments.iter().any(|a| a == "--help" || a == "-h") {
        print!("{HELP}");
        return ExitCode::SUCCESS;
    }
    let options = match options(&arguments) {
        Ok(options) => options,
        Err(message) => {
            eprintln!("opl-differential: {message}; --help tells the use");
            return ExitCode::from(2);
        }
    };
    if options.time {
        time();
        return ExitCode::SUCCESS;
    }
    let readers = readers_of(options.sections);
    match run_sections(&readers, options.seed, options.texts, options.sections) {
        Ok(met) => {
            println!("{met}");
            ExitCode::SUCCESS
        }
        Err(difference) => {
            eprint!("{difference}");
            ExitCode::FAILURE
        }
    }
}
