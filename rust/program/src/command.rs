//! The command line: what `--help`, the man page and the completions are made from.

use crate::source::Format;
use clap::builder::PossibleValuesParser;
use clap::{Arg, ArgAction, Command, ValueHint};
use clap_complete::Shell;

fn policy() -> Arg {
    Arg::new("policy")
        .value_name("POLICY")
        .required(true)
        .value_hint(ValueHint::FilePath)
        .help("The policy: records, text or OPL/XML, recognised by its content")
}

fn tasks() -> Arg {
    Arg::new("tasks")
        .long("tasks")
        .value_name("FILE")
        .value_hint(ValueHint::FilePath)
        .help("The task lines that go with an OPL/XML policy")
}

fn all_sections() -> Arg {
    flag(
        "all-sections",
        "Of OPL/XML read role hierarchies (6.2), separation of duty in them (6.4) and Chinese walls (6.6) too",
    )
}

fn format() -> Arg {
    Arg::new("from")
        .long("from")
        .value_name("FORMAT")
        .value_parser(PossibleValuesParser::new(Format::NAMES))
        .help("The form of the policy, if its content does not show it")
}

fn flag(name: &'static str, help: &'static str) -> Arg {
    Arg::new(name)
        .long(name)
        .action(ArgAction::SetTrue)
        .help(help)
}

fn check() -> Command {
    Command::new("check")
        .about("Check a policy: accepted, with warnings, or refused, and why")
        .long_about(
            "Loads a policy and says whether it is accepted. Every error of a text is reported with file, line and column; a \
             refused record with its line, its reply and what it clashes with. For an accepted policy it warns of what a planner \
             should know: tasks that are open to no role, roles that no user has, tasks that wait for each other, task sets and \
             partitionings that the clerks cannot satisfy, and templates whose orders they cannot finish.",
        )
        .args([policy(), tasks(), all_sections(), format()])
        .arg(flag("strict", "Exit with 1 if there is a warning"))
        .arg(flag("json", "One object"))
        .after_help(concat!(
            "Example:\n",
            "  mishantral check examples/stuck_order/policy.txt\n",
            "\n",
            "Exit status: 0 accepted; 1 refused (with --strict: or a warning); 2 text errors, or a file that cannot be read.",
        ))
}

fn run() -> Command {
    Command::new("run")
        .about("The desk: load a policy and answer requests, one line per request")
        .long_about(
            "Loads a policy and answers requests, each as soon as it arrives, on a line of its own: its place, its reply and the \
             request in words. A refusal is explained: the rule, with its place in the policy, the entries that it met and whose \
             they are, and who could claim now, which copies of the engine are asked. A granted question is followed by its \
             figures.\n\n\
             On a terminal, without REQUESTS, there is a prompt with editing, history and completion (Tab); type \"help\" there for \
             more.",
        )
        .args([policy()])
        .arg(
            Arg::new("requests")
                .value_name("REQUESTS")
                .value_hint(ValueHint::FilePath)
                .help("The requests, text or records; standard input if it is missing or is -"),
        )
        .args([tasks(), all_sections(), format()])
        .arg(flag("brief", "Leave out the explanations"))
        .arg(flag("json", "One object per line").conflicts_with("plain"))
        .arg(flag("plain", "The listing of the desk program, byte for byte"))
        .after_help(concat!(
            "Examples:\n",
            "  mishantral run examples/loan/policy.txt examples/loan/requests.txt\n",
            "  mishantral run policy.txt                 # a prompt\n",
            "  mishantral run --json policy.xml --tasks tasks.txt <requests.txt\n",
            "\n",
            "Exit status: 0 the policy was accepted, whatever the replies; 1 it was refused; 2 text errors (from a pipe: after all ",
            "other lines were answered), or a file that cannot be read or written.",
        ))
}

fn test() -> Command {
    Command::new("test")
        .about("Run files of requests with the replies expected of them")
        .long_about(
            "Runs test files. A file has a policy, as lines of its own or by `policy FILE` (for OPL/XML `policy FILE tasks FILE`; \
             file names are relative to the test file's folder), and then requests. The expected reply of a request follows `=>`: \
             by number, by name or both, and `, rule N` if the rule's place matters; for a question its figures follow, as `, 2 \
             entries, done 0 3` or `, stuck none, free 0 3`. A request without `=>` is expected to be granted. `load => REPLY, \
             record N` is the expected answer to the load. A policy after requests starts a new desk. Lines between `pile` and `end \
             pile` are requests made in one call; those between `written` and `end written` are the policy that is expected to be \
             written out; those between `mend` and `end mend` are a file to mend, in which `=>` and a refusal follow each line that \
             is dropped.",
        )
        .arg(
            Arg::new("files")
                .value_name("FILE")
                .required(true)
                .action(ArgAction::Append)
                .num_args(1..)
                .value_hint(ValueHint::FilePath)
                .help("Test files"),
        )
        .arg(flag("update", "Write the answers into the files, in place of what was expected"))
        .arg(flag("json", "One object per failure, and a last one with the counts"))
        .after_help(concat!(
            "Example:\n",
            "  mishantral test examples/*.test examples/asks/*.test\n",
            "\n",
            "  A line of a test file:\n",
            "  claim 5 0 1          => 14 BEFORE, rule 1     # a comment\n",
            "\n",
            "Exit status: 0 all passed; 1 one failed; 2 text errors, or a file that cannot be read or written.",
        ))
}

fn convert() -> Command {
    Command::new("convert")
        .about("Write a policy or requests in another form: records, text or OPL/XML")
        .long_about(
            "Writes a policy (records, text or OPL/XML) as text, as records, or as OPL/XML with its task lines. Text has the names \
             that the policy gives, or only numbers with --numbers. With --requests, a file of requests is written instead, with \
             the policy's names.\n\n\
             OPL/XML and its task lines are read back to the same records before they are written. If OPL/XML cannot say something \
             (senior roles, walls, numbers that a reader would not give), all of that is reported and nothing is written.",
        )
        .args([policy(), tasks(), all_sections(), format()])
        .arg(
            Arg::new("to")
                .long("to")
                .value_name("FORM")
                .required(true)
                .value_parser(PossibleValuesParser::new(["text", "records", "opl"]))
                .help("What to write"),
        )
        .arg(flag("numbers", "Text without names; OPL/XML with names made from numbers"))
        .arg(value("tasks-to", "FILE", "With --to opl, where the task lines go").value_hint(ValueHint::FilePath))
        .arg(flag("renumber", "With --to opl, write it even if a reader gives other numbers than the policy has"))
        .arg(
            Arg::new("requests")
                .long("requests")
                .value_name("FILE")
                .value_hint(ValueHint::FilePath)
                .help("Write these requests, which use the policy's names"),
        )
        .arg(output("The file to write (default: standard output)"))
        .after_help(concat!(
            "Examples:\n",
            "  mishantral convert policy.xml --tasks tasks.txt --to text\n",
            "  mishantral convert policy.txt --to records -o policy.rec\n",
            "  mishantral convert policy.txt --to opl -o policy.xml --tasks-to tasks.txt\n",
            "\n",
            "Exit status: 0 written; 1 OPL/XML cannot say the policy, and nothing is written; 2 text errors, or a file that cannot be read or \
             written.",
        ))
}

fn form() -> Arg {
    Arg::new("to")
        .long("to")
        .value_name("FORM")
        .value_parser(PossibleValuesParser::new(["text", "records"]))
        .help("What to write (default: text to standard output and to files whose name ends in .txt, otherwise records)")
}

fn output(help: &'static str) -> Arg {
    Arg::new("output")
        .short('o')
        .long("output")
        .value_name("FILE")
        .value_hint(ValueHint::FilePath)
        .help(help)
}

fn write() -> Command {
    Command::new("write")
        .about("Write a policy out as it is after requests, or as a served desk has it now")
        .long_about(
            "Loads a policy, makes the requests, and writes the policy as it is then. Users, roles and permissions that were added \
             or removed since the load are in it or not; sessions, orders and bindings to walls are left out. Records are sorted by \
             kind, declarations and assignments by number, and rules keep their order; so the same policy always gives the same \
             file, and what is written loads to the same policy. Text has the names that policy and requests give.\n\n\
             With --journal, the desk is as its journal leaves it; a server may be running meanwhile.",
        )
        .args([policy().required(false).required_unless_present("journal")])
        .arg(
            Arg::new("requests")
                .value_name("REQUESTS")
                .value_hint(ValueHint::FilePath)
                .help("The requests, text or records (default: none)"),
        )
        .args([tasks(), all_sections(), format(), form(), flag("numbers", "Text without names")])
        .arg(output("The file to write (default: standard output)"))
        .arg(journal_file().conflicts_with("policy").help("A served desk's journal, in the place of POLICY"))
        .arg(desk_of_database())
        .after_help(concat!(
            "Examples:\n",
            "  mishantral write examples/month/policy.txt examples/month/requests.txt\n",
            "  mishantral write policy.rec requests.rec -o policy.new.rec\n",
            "  mishantral write --journal desk.db -o policy.txt\n",
            "\n",
            "Exit status: 0 written; 1 the policy or the journal was refused; 2 text errors, or a file that cannot be read or written.",
        ))
}

fn diff() -> Command {
    let file = |name: &'static str, value: &'static str, help: &'static str| {
        Arg::new(name)
            .value_name(value)
            .required(true)
            .value_hint(ValueHint::FilePath)
            .help(help)
    };
    Command::new("diff")
        .about("What changes from one policy to another, in words")
        .long_about(
            "Compares two policies of any form. Each difference is a line: + a record that was added, - one that was removed, ~ one \
             that gives the same thing another value, > a rule whose place among the rules of its kind changed (replies give that \
             place), = a name or a number that changed. The order of other records has no meaning and is not compared. If a load \
             refuses one of the policies, that is listed too, after a !.",
        )
        .arg(file("old", "OLD", "The policy as it was"))
        .arg(file("new", "NEW", "The policy as it is to be"))
        .args([tasks().help("The task lines of OLD, where it is OPL/XML"), all_sections(), format()])
        .arg(value("new-tasks", "FILE", "The task lines of NEW, where it is OPL/XML").value_hint(ValueHint::FilePath))
        .arg(
            value("by", "WHAT", "Compare records by numbers, which journals know, or by names (default: numbers; names if both are OPL/XML)")
                .value_parser(PossibleValuesParser::new(crate::diff::By::NAMES)),
        )
        .arg(flag("json", "One object per line"))
        .after_help(concat!(
            "Example:\n",
            "  mishantral diff policy.txt policy.new.txt\n",
            "\n",
            "  + task sign open to role lead (policy.new.txt, line 31)\n",
            "  > task test before task sign (policy.new.txt, line 40), rule 2 of its kind, was 1\n",
            "\n",
            "Exit status: 0 no difference; 1 there are differences; 2 text errors, or a file that cannot be read.",
        ))
}

fn mend() -> Command {
    Command::new("mend")
        .about("Mend a damaged policy file: keep what a load would accept, and report the rest")
        .long_about(
            "Reads a policy file in order, keeps each record that a load would accept after those kept before it, and drops the \
             rest. Each dropped record is reported with its place and its refusal. What is kept always loads; a file that loads \
             comes out unchanged, with nothing dropped. An incomplete last record is reported as SHAPE. The damaged file itself is \
             never written to.",
        )
        .arg(
            Arg::new("file")
                .value_name("FILE")
                .required(true)
                .value_hint(ValueHint::FilePath)
                .help("The damaged policy: records, or text"),
        )
        .args([format(), form(), flag("numbers", "Text without names")])
        .arg(output("Where the mended file goes; without it there is only the report; - is standard output, and then the report goes to standard error"))
        .arg(flag("json", "The report as one object per line"))
        .after_help(concat!(
            "Examples:\n",
            "  mishantral mend examples/mend/damaged.rec\n",
            "  mishantral mend damaged.rec -o policy.rec\n",
            "\n",
            "  A line of the report:\n",
            "  record 17: 5 TAKEN  user 300\n",
            "\n",
            "Exit status: 0 nothing is dropped, the file loads; 1 records are dropped; 2 text errors, or a file that cannot be read or written.",
        ))
}

fn journal_file() -> Arg {
    Arg::new("journal")
        .long("journal")
        .value_name("FILE")
        .value_hint(ValueHint::FilePath)
}

fn desk_of_database() -> Arg {
    value(
        "desk",
        "NAME",
        "Which desk, if the journal is in PostgreSQL (--journal postgresql://..)",
    )
}

fn number(name: &'static str, help: &'static str) -> Arg {
    Arg::new(name)
        .long(name)
        .value_name("N")
        .value_parser(clap::value_parser!(u64).range(1..))
        .help(help)
}

fn value(name: &'static str, value: &'static str, help: &'static str) -> Arg {
    Arg::new(name).long(name).value_name(value).help(help)
}

fn serve() -> Command {
    Command::new("serve")
        .about("Serve a desk to many clients; every request is in its journal before it is answered")
        .long_about(
            "Answers the requests of many clients with one engine. Each request and its reply are in the journal, an SQLite file, \
             before the reply is sent. At its start the server loads the journal's last snapshot and asks the later requests again: \
             every reply must be the one given then. A journal of another version or policy, or a damaged one, is refused and stays \
             unchanged. The server may be killed at any moment. docs/SERVE.md describes the forms of requests, the journal's tables \
             and what is promised.",
        )
        .args([policy().required(false), tasks(), all_sections(), format()])
        .arg(journal_file().help("The journal; it is begun with POLICY where there is none. A file, or a database: postgresql://user@host/database, with --desk"))
        .arg(
            value("desk", "NAME[=JOURNAL]", "One of several desks, each with its own engine, policy and journal; with a database as --journal, the desk's name there")
                .action(ArgAction::Append),
        )
        .arg(
            socket("The Unix socket that clients connect to")
                .required(false)
                .required_unless_present("http"),
        )
        .arg(value("socket-mode", "MODE", "The socket's mode in octal digits (default 0600: only its owner)"))
        .arg(value("socket-group", "GROUP", "The socket's group"))
        .arg(value("http", "ADDRESS", "Also answer by HTTP, at a loopback address such as 127.0.0.1:8080, a Unix socket such as unix:desk.http, or with certificates at any address (docs/HTTP.md)"))
        .arg(
            value("account-header", "NAME", "The header in which a proxy names the account that it has signed in; without it the account is that of the process at the other end of the Unix socket")
                .requires("http"),
        )
        .arg(value("http-mode", "MODE", "The mode of HTTP's Unix socket (default 0600)").requires("http"))
        .arg(value("http-group", "GROUP", "The group of HTTP's Unix socket").requires("http"))
        .arg(number("http-connections", "The most HTTP connections at once (default 1024)").requires("http"))
        .arg(
            number("http-account-connections", "The most HTTP connections of one account at once, or behind a proxy its calls (default: half of all)")
                .requires("http"),
        )
        .arg(
            value("tls-cert", "FILE", "The server's certificate chain in PEM; HTTP is then encrypted (TLS)")
                .requires("http")
                .requires("tls-key")
                .value_hint(ValueHint::FilePath),
        )
        .arg(
            value("tls-key", "FILE", "The certificate's private key in PEM, without a password")
                .requires("tls-cert")
                .value_hint(ValueHint::FilePath),
        )
        .arg(
            value("tls-client-ca", "FILE", "The certificate authorities of clients, in PEM; the account is the common name of the client's certificate")
                .requires("tls-cert")
                .value_hint(ValueHint::FilePath),
        )
        .arg(
            value("access", "FILE", "Which account may ask what; without it only the server's own account and root may connect, and may ask everything")
                .value_hint(ValueHint::FilePath),
        )
        .arg(number("group", "The most requests in one transaction (default 4096)"))
        .arg(number("snapshot", "Take a snapshot after this many requests (default 100000)"))
        .arg(number("keys", "For how many days a request that is sent again with its key is answered from the journal (default 30)"))
        .arg(number("clients", "The most clients at once (default 1000)"))
        .arg(number("account-clients", "The most clients of one account at once (default: half of all)"))
        .arg(number("idle-seconds", "The most seconds that an HTTP connection on which nothing moves is kept, or a client that takes no replies (default 60)"))
        .arg(number("question-seconds", "The most seconds that a question (who, finish, why) may take (default 5)"))
        .arg(number("question-megabytes", "The most memory that a question may take, in megabytes (default 32)"))
        .arg(flag("together", "If one desk's journal fails, end all desks"))
        .arg(
            value("log", "FORM", "The form of the log on standard error, one line per event: text, pairs or JSON objects (default text)")
                .value_parser(PossibleValuesParser::new(crate::report::Form::NAMES)),
        )
        .arg(
            value("log-level", "LEVEL", "Which events are logged: info adds starts, ends and what is barred, debug every HTTP response (default warn)")
                .value_parser(PossibleValuesParser::new(crate::report::Level::NAMES)),
        )
        .arg(
            Arg::new("saved")
                .long("saved")
                .value_name("HOW")
                .value_parser(PossibleValuesParser::new(["full", "normal", "replicated"]))
                .help("full: what was answered survives a power failure; normal: it survives the end of the program; replicated: a synchronous standby of the database has it too (default full)"),
        )
        .arg(flag("standby", "With a database: watch desks that another server has, and take them over when it is silent"))
        .arg(number("takeover", "With a database: a server that is silent for this many seconds loses its desks (default 5)"))
        .arg(value("share", "K/N", "With --standby: this is server K of N, which share the desks by their numbers; each takes its own desks at once, and others if nobody serves them").requires("standby"))
        .arg(value("server", "NAME", "The name of this server that clients of another server are given (default: host and socket)"))
        .after_help(concat!(
            "Examples:\n",
            "  mishantral serve examples/named.txt --journal desk.db --socket desk.sock     # the first time\n",
            "  mishantral serve --journal desk.db --socket desk.sock\n",
            "  mishantral ask --socket desk.sock 'open order 7 of template breakdown'\n",
            "  mishantral serve --desk mill=mill.db --desk yard=yard.db --socket desks.sock\n",
            "  mishantral serve --journal desk.db --http unix:desk.http\n",
            "  mishantral serve --journal desk.db --access access.txt --http 127.0.0.1:8080 --account-header X-Account\n",
            "  mishantral serve --journal desk.db --access access.txt --http 0.0.0.0:8443 --tls-cert desk.crt --tls-key desk.key --tls-client-ca clerks.crt\n",
            "  mishantral serve policy.txt --journal postgresql://desk@/desks?host=/run/postgresql --desk mill --socket desk.sock --standby\n",
            "\n",
            "Exit status: 1 a policy or a journal was refused, or the journal failed; 2 wrong use, or a file that cannot be read.",
        ))
}

fn socket(help: &'static str) -> Arg {
    Arg::new("socket")
        .long("socket")
        .value_name("PATH")
        .required(true)
        .value_hint(ValueHint::FilePath)
        .help(help)
}

fn ask() -> Command {
    Command::new("ask")
        .about("Send requests to a desk that is served, and print its replies")
        .long_about(
            "Sends lines to a served desk and prints the reply to each: its number, the reply, and the figures of a question. A \
             line is a request, or one of the questions `who ORDER TASK`, `finish ORDER`, `finish all`, `why REQUEST` and \
             `journal`. The desk knows the sender by the account that runs this program. Each request has a key: if the connection \
             is lost, requests that were not answered are sent again, and nothing is done twice.",
        )
        .arg(socket("The server's socket; may be given several times, and the server that has the desk answers").action(ArgAction::Append))
        .arg(
            value("retry", "SECONDS", "How long to try to reach a server that is gone (default 10, 0: do not try again)")
                .value_parser(clap::value_parser!(u64)),
        )
        .arg(value("desk", "NAME", "Which desk, if there are several"))
        .arg(value("as", "ACCOUNT", "Speak for this account; only accounts that speak for everyone may do so"))
        .arg(flag("why", "Explain each refusal, as `run` does"))
        .arg(flag("strict", "Exit with 1 if a request is refused"))
        .arg(flag("json", "One object per line"))
        .arg(
            Arg::new("lines")
                .value_name("LINE")
                .action(ArgAction::Append)
                .num_args(0..)
                .help("Requests, one line each (default: standard input)"),
        )
        .after_help(concat!(
            "Examples:\n",
            "  mishantral ask --socket desk.sock 'claim 1 7 sign' 'done 1 7 sign'\n",
            "  mishantral ask --socket desk.sock --why 'claim 1 7 sign'\n",
            "\n",
            "Exit status: 0 answered, whatever the replies; 1 with --strict, if one is a refusal; 2 if a line is wrong, barred or not done, or the desk cannot be reached.",
        ))
}

fn journal() -> Command {
    Command::new("journal")
        .about("Print a desk's journal, check it, or seal it")
        .long_about(
            "Prints the requests of a journal with their replies, if they meet every option given. With --check, all requests are \
             asked again from the load on, and every reply, sum and snapshot is compared. With --seal, the number of the last \
             request and its sum are printed. Keep them where nobody who can write the journal can write: then --check --seal shows \
             whatever was changed or cut before that request. A server may be running meanwhile.",
        )
        .arg(
            Arg::new("file")
                .value_name("FILE")
                .required_unless_present("socket")
                .value_hint(ValueHint::FilePath)
                .help("The journal: a file, or a database with --desk"),
        )
        .arg(
            socket("Read it through the desk that is served here, for accounts that may read it but cannot open its file")
                .required(false)
                .conflicts_with_all(["file", "check"]),
        )
        .arg(value("desk", "NAME", "Which desk: with --socket if there are several, or of a journal in PostgreSQL"))
        .arg(value("order", "ORDER", "Requests about this order: by number, or by name, for every opening that had it"))
        .arg(number("opening", "Requests about the order that this request opened"))
        .arg(value("user", "USER", "Requests about this user, or one of the user's subjects"))
        .arg(value("task", "TASK", "Requests about this task"))
        .arg(value("account", "ACCOUNT", "Requests of this account"))
        .arg(flag("barred", "What accounts asked and may not ask, instead of requests"))
        .arg(value("reply", "REPLY", "Requests with this reply, by number or name; `refused`: all but GRANTED"))
        .arg(value("since", "TIME", "From this time on, UTC: 2026-11-15, or '2026-11-15 20:31'"))
        .arg(value("until", "TIME", "Before this time"))
        .arg(number("last", "Only the last N of these"))
        .arg(flag("json", "One object per line"))
        .arg(flag("check", "Ask everything again and compare"))
        .arg(
            value("seal", "SEAL", "Print the journal's seal; with --check, the seal that it must have")
                .num_args(0..=1)
                .default_missing_value("")
                .conflicts_with("socket"),
        )
        .after_help(concat!(
            "Examples:\n",
            "  mishantral journal desk.db --user anna --reply refused\n",
            "  mishantral journal desk.db --check\n",
            "  mishantral journal desk.db --seal >>/elsewhere/seals\n",
            "  mishantral journal desk.db --check --seal \"$(tail -n 1 /elsewhere/seals)\"\n",
            "  sqlite3 -readonly desk.db 'SELECT reply, count(*) FROM answered GROUP BY reply'\n",
            "\n",
            "Exit status: 0 printed, or sound; 1 the journal is refused; 2 wrong use.",
        ))
}

fn who() -> Command {
    Command::new("who")
        .about("Who of those signed in could claim a task of an order now")
        .long_about(
            "Prints the live subjects whose claim would be granted now, as copies of the engine answer. The desk is as its journal \
             leaves it; a server may be running meanwhile.",
        )
        .arg(Arg::new("order").value_name("ORDER").required(true).help("The order, by number or name"))
        .arg(Arg::new("task").value_name("TASK").required(true).help("The task, by number or name"))
        .arg(journal_file().required(true).help("The desk's journal: a file, or postgresql://.."))
        .arg(desk_of_database())
        .arg(flag("json", "One object"))
        .after_help(concat!(
            "Example:\n",
            "  mishantral who mill_7 sign --journal desk.db\n",
            "\n",
            "Exit status: 0 somebody; 1 nobody, or the journal is refused; 2 wrong use.",
        ))
}

fn finish() -> Command {
    Command::new("finish")
        .about("Whether those signed in can still finish an order: a plan, or why there is none")
        .long_about(
            "Searches for a plan by which those signed in, or the users of a list, finish an order: every task of it done, and the \
             order ended. Every step of a plan is granted by a copy of the engine. A plan may activate more of their roles and \
             release what is held; it signs nobody out, and signs in users of the list who are not signed in. If there is no plan, \
             it says which task nobody can do, which rules are in the way, and with whom it could be done. The search is exhaustive \
             up to a bound of claims tried; if that is reached, it says so. With --all, it looks at every open order by itself, and \
             names those that will be stuck.",
        )
        .arg(Arg::new("order").value_name("ORDER").required_unless_present("all").help("The order, by number or name"))
        .arg(flag("all", "Every open order").conflicts_with("order"))
        .arg(journal_file().required(true).help("The desk's journal: a file, or postgresql://.."))
        .arg(desk_of_database())
        .arg(value("with", "USERS", "These users, by number or name, separated by commas, instead of those signed in"))
        .arg(number("tries", "The most claims to try (default 5000000)"))
        .arg(flag("json", "One object per order"))
        .after_help(concat!(
            "Examples:\n",
            "  mishantral finish mill_7 --journal desk.db\n",
            "  mishantral finish --all --journal desk.db --with anna,bert,clara\n",
            "\n",
            "Exit status: 0 every order asked for can be finished; 1 one cannot, is not settled or is not open, or the journal is refused; 2 wrong use.",
        ))
}

fn whatif() -> Command {
    Command::new("whatif")
        .about("The requests of a journal under another policy: which replies would differ")
        .long_about(
            "Asks every request of a journal again, of an engine with another policy, and says which replies would differ: by the \
             kind of the requests, the reply that was given, the one that would be, and the rules of both, with the first examples \
             and the clerks concerned; and which orders would not have been opened. A request about a user, a subject or an order \
             that an earlier difference changed counts as one that follows. Nothing is written, and a server may be running \
             meanwhile.",
        )
        .arg(journal_file().required(true).help("The desk's journal: a file, or postgresql://.."))
        .arg(desk_of_database())
        .arg(policy().long("policy").help("The other policy: records, text, or OPL/XML"))
        .args([tasks(), all_sections(), format()])
        .arg(value("since", "TIME", "Compare requests from this time on, UTC: 2026-11-15, or '2026-11-15 20:31'; the desk as it was by then is brought under the other policy first"))
        .arg(
            flag("present", "Compare no request: tell whether the desk as it is now, with its users, sessions and open orders, fits under the other policy")
                .conflicts_with("since"),
        )
        .arg(number("examples", "The most examples of each (default 3)"))
        .arg(flag("json", "One object for each difference, and one for all"))
        .after_help(concat!(
            "Example:\n",
            "  mishantral whatif --journal desk.db --policy policy.new.txt\n",
            "\n",
            "  claim: 0 GRANTED, would be 15 SEPARATION, rule 2: 12 times, and 3 times following from others\n",
            "    would be refused by task set 1 of repair sign (policy.new.txt, line 12)\n",
            "    request 1523, 2026-11-03 07:12:44, anna: claim am mill_7 sign\n",
            "\n",
            "Exit status: 0 done; 1 the policy or the journal is refused, or with --present something does not fit; 2 wrong use.",
        ))
}

fn moving() -> Command {
    Command::new("move")
        .about("Bring a desk with open orders under another policy, into a new journal")
        .long_about(
            "Begins a journal with another policy and brings what the desk holds now into it by ordinary requests, each granted by \
             the engine: users and roles, what walls bind users to, open orders with their entries, and sessions with all roles \
             that they have had active. Names, keys, openings and the time of each entry come along, so `holds` and the audit trail \
             continue across the move. The order in which entries can be entered under the new rules is searched for.\n\n\
             Either all of it moves, or nothing is written and the obstacles are listed, with the rule and its line. --leave keeps \
             orders behind on the old journal, which stays unchanged. The old desk must not be served meanwhile; with --dry-run it \
             may be. If the move is killed at any moment, the new journal is complete or absent.",
        )
        .arg(journal_file().required(true).help("The desk's journal: a file, or postgresql://.."))
        .arg(desk_of_database())
        .arg(policy().long("policy").help("The other policy: records, text, or OPL/XML"))
        .args([tasks(), all_sections(), format()])
        .arg(
            Arg::new("into")
                .long("to")
                .value_name("JOURNAL")
                .value_hint(ValueHint::FilePath)
                .required_unless_present("dry-run")
                .help("The new journal, which must not be there yet: a file, or postgresql://..#NAME"),
        )
        .arg(flag("dry-run", "Say what would be moved, and what is in the way; nothing is written"))
        .arg(value("leave", "ORDERS", "Leave these orders behind: numbers or names, separated by commas"))
        .arg(
            value("users", "WHOSE", "as-now: users and roles as the desk has them now, with all changes since its load; from-policy: as the new policy has them")
                .value_parser(["as-now", "from-policy"])
                .default_value("as-now"),
        )
        .arg(flag("json", "One object"))
        .after_help(concat!(
            "Examples:\n",
            "  mishantral move --journal desk.db --policy new.txt --dry-run\n",
            "  mishantral move --journal desk.db --policy new.txt --to new.db --leave 7,mill_9\n",
            "  mishantral move --journal postgresql:///desks --desk mill --policy new.txt --to postgresql:///desks#mill-2\n",
            "\n",
            "  desk.db cannot be moved under new.txt: one thing stands in the way; nothing was written\n",
            "    mill_7: the entry of anna for sign would break task set 1 of repair sign (new.txt, line 12)\n",
            "    --leave 7 would leave these orders on desk.db\n",
            "\n",
            "Exit status: 0 moved, or could be; 1 something is in the way, or the policy or the journal is refused; 2 wrong use.",
        ))
}

/// A number of hours above 0.
fn hours(word: &str) -> Result<f64, String> {
    let hours = word.parse::<f64>().ok();
    let hours = hours.filter(|hours| *hours > 0.0 && *hours < 100_000.0);
    hours.ok_or_else(|| "a number of hours above 0 is expected".to_string())
}

fn holds() -> Command {
    Command::new("holds")
        .about("How long orders wait between two tasks, and why")
        .long_about(
            "Measures, for each opening of an order, the hold between two of its tasks: from the moment at which the first is done \
             to the moment at which the second is claimed. The journal is replayed from its load on, and the time of each hold is \
             split, exactly, into: nobody could (some were signed in, and the engine would have refused each of them; by which \
             rule), somebody could (who, and for how long), nobody signed in, and held.\n\n\
             What counts:\n\n\
             - The claim that ends a hold is the one with which the second task is first done, or with which it is held at the end \
             of the journal. A claim that is released does not end it; the time until its release is part of the hold, as held.\n\
             - If the first task was done more than once, the hold begins with the last time before that claim.\n\
             - An opening has at most one hold. Order numbers are used again, so an opening is identified by the request that \
             opened it.\n\
             - Orders that are still waiting are counted separately, with the time up to the journal's last request; so are orders \
             that were ended unclaimed. Medians and other figures are about the holds that ended with a claim: each is the length \
             of a hold that was measured, the shortest that at least half of them do not exceed.\n\
             - A hold belongs to the period in which it began.\n\n\
             A server may be running meanwhile. The journal is measured as it was when the command began.",
        )
        .arg(journal_file().required(true).help("The desk's journal: a file, or postgresql://.."))
        .arg(desk_of_database())
        .arg(value("from", "TASKS", "The task that is done first, by name or number; with several templates one task of each, separated by commas").required(true))
        .arg(value("to", "TASKS", "The task that is claimed next, of the same template; the same number of them").required(true))
        .arg(
            value("end", "WHEN", "What ends a hold: the claim of the second task (default), or that it is done")
                .value_parser(PossibleValuesParser::new(["claim", "done"])),
        )
        .arg(
            value("by", "WHAT", "How holds are grouped: by when they began (default: month), by the clerk whose claim ended them, or each opening by itself")
                .value_parser(PossibleValuesParser::new(crate::holds::By::NAMES)),
        )
        .arg(value("shifts", "SHIFTS", "The shifts: 'day 06:00-14:00, late 14:00-22:00, night 22:00-06:00'"))
        .arg(value("zone", "OFFSET", "Days and hours at this offset from UTC, such as +01:00 (default UTC)").allow_hyphen_values(true))
        .arg(value("since", "TIME", "Holds that began at this time or later, UTC: 2026-11-15, or '2026-11-15 20:31'"))
        .arg(value("until", "TIME", "Holds that began before this time"))
        .arg(number("worst", "How many of the longest holds are shown (default 10)"))
        .arg(value("plot", "FILE", "Also write a picture, as SVG: holds by period with their parts, waiting orders by hour of the day, and the longest holds").value_hint(ValueHint::FilePath))
        .arg(
            value("panels", "PANELS", "Which panels the picture has, separated by commas (default: all)")
                .value_parser(PossibleValuesParser::new(crate::holds::Panel::NAMES))
                .value_delimiter(',')
                .action(ArgAction::Append)
                .requires("plot"),
        )
        .arg(value("title", "TEXT", "The picture's title").requires("plot"))
        .arg(
            value("top", "HOURS", "The time axis of the picture ends at this many hours, so that two pictures can be compared")
                .value_parser(hours)
                .requires("plot"),
        )
        .arg(flag("csv", "CSV: one row per group, with --by opening one row per hold; times in seconds").conflicts_with("json"))
        .arg(flag("json", "One object; times in microseconds"))
        .after_help(concat!(
            "Examples:\n",
            "  mishantral holds --journal desk.db --from test --to sign\n",
            "  mishantral holds --journal desk.db --from test --to sign --by shift --shifts 'day 06:00-18:00, night 18:00-06:00'\n",
            "  mishantral holds --journal desk.db --from test --to sign --by week --plot holds.svg\n",
            "  mishantral holds --journal desk.db --from test --to sign --since 2026-11-01 --by opening --csv >holds.csv\n",
            "\n",
            "Exit status: 0 measured; 1 the journal is refused; 2 wrong use, or a file that cannot be written.",
        ))
}

/// A number of minutes, 0 or more.
fn minutes(word: &str) -> Result<f64, String> {
    let minutes = word.parse::<f64>().ok();
    let minutes = minutes.filter(|minutes| (0.0..1e6).contains(minutes));
    minutes.ok_or_else(|| "a number of minutes is expected".to_string())
}

fn staff() -> Command {
    Command::new("staff")
        .about("What each shift can finish, who must be there, how many may be away; or orders played through a roster")
        .long_about(
            "Says, for each template and shift, whether the clerks of the shift can finish every order from its start: the smallest \
             crews, the largest K such that any K of them may be away, and a smallest absence that is too much; with --plan a plan, \
             each request of which a copy of the engine grants. If they cannot: which task nobody can do, which rules clash, \
             without which of them it could be finished, and whom or which role would be needed. With --journal it says the same of \
             each open order, from where it stands. A clerk signs in once and keeps the session, so dynamic sets count for the \
             whole order. The search is exhaustive up to a bound of claims tried; if that is reached, the answer is \"not settled\".\n\n\
             A file of shifts has one line per shift, `night 22:00-06:00: 300-303 dirk role:signer`: a name, hours, and clerks by \
             name, number, range or role.\n\n\
             With --simulate, the orders of a file are played through the policy and the roster, and what happens is written as a \
             journal: `holds` then says how long they would wait, and why. Clerks sign in within five minutes of the beginning of \
             their shift, with all roles that they may have active together, and sign out when it ends and their current task is \
             done. The clerk who has been free longest claims the first task that the engine grants: of the oldest order first, or \
             as --prefer says. The time that a task takes, and the time until somebody notices it, vary randomly between half and \
             one and a half times the given one. A claim that a rule of the policy refuses is in the journal once. Every answer is \
             the engine's own; the same seed gives the same requests and answers.",
        )
        .args([policy().required(false).required_unless_present("journal"), tasks(), all_sections(), format()])
        .arg(
            value("shift", "NAME=CLERKS", "A shift: night=300-319,325,dirk,role:signer; may be given several times (default: all clerks, if there is no --shifts either)")
                .action(ArgAction::Append)
                .conflicts_with("simulate"),
        )
        .arg(
            value("shifts", "FILE", "The shifts, one line each: `night 22:00-06:00: 300-303 dirk role:signer`")
                .value_hint(ValueHint::FilePath)
                .conflicts_with("simulate"),
        )
        .arg(value("template", "TEMPLATE", "Only this template, by number or name").conflicts_with("simulate"))
        .arg(
            number("absent", "Only ask whether any K may be away; exit with 1 if they may not")
                .value_name("K")
                .conflicts_with("simulate"),
        )
        .arg(flag("plan", "Print the plans too").conflicts_with("simulate"))
        .arg(number("tries", "The most claims to try for each of verdict, crews, absence, clash and remedy (default 5000000)").conflicts_with("simulate"))
        .arg(
            value("plot", "FILE", "Also write a picture, as SVG: what can be finished, by shift")
                .value_hint(ValueHint::FilePath)
                .conflicts_with("simulate"),
        )
        .arg(flag("json", "One object for each template or order and shift").conflicts_with("simulate"))
        .arg(
            value("simulate", "ORDERS", "Play these orders: CSV with the columns time (2026-11-15 20:31, UTC) and template, optionally name, and tasks with the minutes that they take")
                .requires("policy")
                .requires("roster")
                .requires("journal")
                .value_hint(ValueHint::FilePath),
        )
        .arg(
            value("roster", "FILE", "The shifts to play, in the form of --shifts")
                .requires("simulate")
                .value_hint(ValueHint::FilePath),
        )
        .arg(journal_file().help("The desk whose open orders are looked at; its policy is used if POLICY is missing. With --simulate: the journal to write, which must not exist yet"))
        .arg(desk_of_database())
        .arg(value("minutes", "MINUTES", "How many minutes tasks take, if ORDERS does not say it: test=20,sign=6 (default 10)").requires("simulate"))
        .arg(
            value("notice", "MINUTES", "How many minutes until somebody notices that an order arrived or moved on (default 2)")
                .value_parser(minutes)
                .requires("simulate"),
        )
        .arg(value("prefer", "WHAT", "oldest order first (default), newest, or tasks that come before all others: sign").requires("simulate"))
        .arg(
            value("seed", "N", "The seed of the random numbers (default 1)")
                .value_parser(clap::value_parser!(u64))
                .requires("simulate"),
        )
        .after_help(concat!(
            "Examples:\n",
            "  mishantral staff policy.txt --shift night=300-303,556 --plan\n",
            "  mishantral staff policy.txt --shifts roster.txt --plot staff.svg\n",
            "  mishantral staff --journal desk.db --shifts roster.txt --absent 1\n",
            "  mishantral staff policy.txt --simulate orders.csv --roster roster.txt --journal played.db\n",
            "\n",
            "Exit status: 0 every shift can finish all (with --absent: and any K may be away), or played; 1 one cannot, or is not settled, or the policy or the ",
            "journal was refused; 2 wrong use, or a file that cannot be read or written.",
        ))
}

fn generate() -> Command {
    let shells = ["man", "bash", "zsh", "fish", "elvish", "powershell"];
    Command::new("generate")
        .about("Print the man page, or the completions for a shell")
        .arg(
            Arg::new("what")
                .value_name("WHAT")
                .required(true)
                .value_parser(PossibleValuesParser::new(shells))
                .help("The man page, or a shell"),
        )
        .after_help(concat!(
            "Examples:\n",
            "  mishantral generate man >mishantral.1\n",
            "  mishantral generate bash >~/.local/share/bash-completion/completions/mishantral\n",
            "\n",
            "Exit status: 0 written; 2 otherwise.",
        ))
}

pub fn command() -> Command {
    Command::new("mishantral")
        .version(env!("CARGO_PKG_VERSION"))
        .about("Checks policies, answers requests and explains refusals, with a policy engine whose every answer is proved")
        .subcommand_required(true)
        .arg_required_else_help(true)
        .max_term_width(110)
        .after_help(concat!(
            "Example:\n",
            "  mishantral run examples/listing/policy.txt examples/listing/requests.txt\n",
            "\n",
            "`mishantral help COMMAND` describes a command in full.\n",
            "\n",
            "Exit status: 0 all well; 1 a policy refused or a test failed; 2 wrong use, text errors, or a file that cannot be read ",
            "or written.",
        ))
        .subcommands([
            check(),
            run(),
            test(),
            convert(),
            diff(),
            write(),
            mend(),
            serve(),
            ask(),
            journal(),
            who(),
            finish(),
            whatif(),
            moving(),
            holds(),
            staff(),
            generate(),
        ])
}

/// The shell of `generate`, if it is one.
pub fn shell(what: &str) -> Option<Shell> {
    match what {
        "bash" => Some(Shell::Bash),
        "zsh" => Some(Shell::Zsh),
        "fish" => Some(Shell::Fish),
        "elvish" => Some(Shell::Elvish),
        "powershell" => Some(Shell::PowerShell),
        _ => None,
    }
}
