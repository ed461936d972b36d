//! The frame of a program with options: its help and its exit status.

use std::process::ExitCode;

/// Parses the options and runs. `--help` prints the help; the exit status is 2 for wrong usage and 1 for a failure.
pub fn command<O>(
    name: &str,
    help: &str,
    options: fn(&[String]) -> Result<O, String>,
    run: fn(&O) -> Result<(), String>,
) -> ExitCode {
    let arguments: Vec<String> = std::env::args().skip(1).collect();
    if arguments.iter().any(|a| a == "--help" || a == "-h") {
        print!("{help}");
        return ExitCode::SUCCESS;
    }
    let options = match options(&arguments) {
        Ok(options) => options,
        Err(message) => {
            eprintln!("{name}: {message}; --help tells the use");
            return ExitCode::from(2);
        }
    };
    match run(&options) {
        Ok(()) => ExitCode::SUCCESS,
        Err(message) => {
            eprintln!("{name}: {message}");
            ExitCode::FAILURE
        }
    }
}
