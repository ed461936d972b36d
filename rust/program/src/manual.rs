//! The man page, made from the command line's own description.

use clap::{Arg, Command};

/// Text as the formatter takes it: no line begins with a control character, and a backslash stays one.
fn plain(text: &str) -> String {
    let escaped = text.replace('\\', "\\e").replace('-', "\\-");
    let guarded = escaped
        .lines()
        .map(|line| match line.starts_with(['.', '\'']) {
            true => format!("\\&{line}"),
            false => line.to_string(),
        });
    guarded.collect::<Vec<String>>().join("\n")
}

fn option(arg: &Arg) -> String {
    let values: Vec<String> = arg
        .get_value_names()
        .unwrap_or(&[])
        .iter()
        .map(|v| format!("\\fI{v}\\fR"))
        .collect();
    let values = if arg.get_action().takes_values() {
        values.join(" ")
    } else {
        String::new()
    };
    let short = arg.get_short().map(|c| format!("\\fB\\-{c}\\fR"));
    let long = arg
        .get_long()
        .map(|l| format!("\\fB\\-\\-{}\\fR", plain(l)));
    let names: Vec<String> = short.into_iter().chain(long).collect();
    let head = [names.join(", "), values].join(" ");
    let mut help = arg.get_help().map_or(String::new(), |h| h.to_string());
    let possible = arg.get_possible_values();
    if !possible.is_empty() {
        let names: Vec<&str> = possible.iter().map(|p| p.get_name()).collect();
        help += &format!(": {}", names.join(", "));
    }
    format!(".TP\n{}\n{}\n", head.trim(), plain(&help))
}

fn usage(command: &Command) -> String {
    let mut text = format!("\\fBmishantral {}\\fR", command.get_name());
    for arg in command
        .get_arguments()
        .filter(|a| !matches!(a.get_id().as_str(), "help" | "version"))
    {
        let value = arg
            .get_value_names()
            .and_then(|v| v.first())
            .map_or(String::new(), |v| v.to_string());
        let many = if arg.get_num_args().is_some_and(|n| n.max_values() > 1) {
            ".."
        } else {
            ""
        };
        let shown = match arg.get_long() {
            Some(long) if arg.get_action().takes_values() => {
                format!("\\-\\-{} \\fI{value}\\fR", plain(long))
            }
            Some(long) => format!("\\-\\-{}", plain(long)),
            None => format!("\\fI{value}\\fR{many}"),
        };
        text += &if arg.is_required_set() {
            format!(" {shown}")
        } else {
            format!(" [{shown}]")
        };
    }
    text
}

/// Examples, as they are laid out, and exit statuses.
fn after(command: &Command) -> String {
    let text = command
        .get_after_help()
        .map_or(String::new(), |h| h.to_string());
    let paragraphs = text.split("\n\n").map(|paragraph| {
        let text = plain(paragraph);
        match paragraph.contains("\n  ") || paragraph.starts_with("  ") {
            true => format!(".PP\n.nf\n{text}\n.fi\n"),
            false => format!(".PP\n{text}\n"),
        }
    });
    paragraphs.collect()
}

fn section(command: &Command) -> String {
    let about = command.get_long_about().or(command.get_about());
    let about = about.map_or(String::new(), |a| a.to_string());
    let arguments = command
        .get_arguments()
        .filter(|a| !matches!(a.get_id().as_str(), "help" | "version"));
    let options: String = arguments.map(option).collect();
    format!(
        ".SS {}\n{}\n.PP\n{}\n{options}{}",
        command.get_name(),
        usage(command),
        plain(&about),
        after(command)
    )
}

const DESCRIPTION: &str = "Mishantral decides who may hold which roles, who may act in which session, and who may take which task of \
which order. A policy is a file of records (sixteen bytes each), text in the notation (one line per record, with names), or a dealer's OPL/XML \
with its task lines. docs/PROGRAM.md in the sources describes the notation and has more examples.";

/// The page, in section 1.
pub fn manual(command: &mut Command) -> String {
    command.build();
    let version = command.get_version().unwrap_or_default().to_string();
    let about = command.get_about().map_or(String::new(), |a| a.to_string());
    let mut page = format!(
        ".TH MISHANTRAL 1 \"\" \"mishantral {version}\"\n.SH NAME\nmishantral \\- {}\n.SH SYNOPSIS\n\\fBmishantral\\fR \\fICOMMAND\\fR ..\n.SH DESCRIPTION\n{}\n{}.SH COMMANDS\n",
        plain(&about),
        plain(DESCRIPTION),
        after(command),
    );
    for sub in command.get_subcommands().filter(|c| c.get_name() != "help") {
        page += &section(sub);
    }
    page + ".SH FILES\n.TP\n$XDG_STATE_HOME/mishantral/history, or ~/.local/state/mishantral/history\nThe lines of the prompt.\n"
}
