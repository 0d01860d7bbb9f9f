//! The subcommands, and the help that they give.

use crate::arguments::{Arguments, Opt, parse};
use crate::session::{Done, Session, Status, Trouble};
use crate::{bound, carry, certify, chart, check, figures, header, link, list, load, part, table, verify, walk, why};
use std::ffi::OsString;

struct Command {
    name: &'static str,
    arguments: &'static str,
    about: &'static str,
    options: &'static [Opt],
    run: fn(&mut Session, &Arguments) -> Done,
}

const fn flag(name: &'static str, about: &'static str) -> Opt {
    Opt { name, value: None, about }
}

const fn with(name: &'static str, value: &'static str, about: &'static str) -> Opt {
    Opt { name, value: Some(value), about }
}

const COMMANDS: [Command; 16] = [
    Command {
        name: "check",
        arguments: "FILE..",
        about: "says whether texts are accepted, and explains the first fault of each",
        options: &[
            flag("require-finishing", "status 1 also for a program that is not finishing"),
            with("warn", "all|none", "warnings that refuse nothing; all where it is not set"),
            flag("json", "an object a line, on standard output"),
        ],
        run: check::run,
    },
    Command {
        name: "why",
        arguments: "FILE",
        about: "shows the way round on which a program that is not finishing reads no token",
        options: &[with("book", "OUT", "writes a book on which a walk goes that way for ever, where one is found")],
        run: why::run,
    },
    Command {
        name: "list",
        arguments: "FILE",
        about: "prints the table as the lister does",
        options: &[flag("names", "the table beside the rules, with names for numbers and places in the text")],
        run: list::run,
    },
    Command {
        name: "chart",
        arguments: "FILE",
        about: "draws a syntax chart of each rule, as SVG",
        options: &[
            with("output", "OUT", "writes it there; also -o"),
            with("figures", "REPORT", "what `sst figures` printed: never executed is pale, often executed is dark"),
        ],
        run: chart::run,
    },
    Command {
        name: "run",
        arguments: "FILE [TOKEN..] [-- ANSWER..]",
        about: "walks tokens and answers, by name or number, and shows each step with its event",
        options: &[
            with("book", "BOOK", "tokens, answers, allowance and budget of a book file, which may have names"),
            with("allowance", "N", "tokens that may be repaired; 0 where it is not set"),
            with("budget", "N", "steps at most; 100,000 where it is not set"),
            flag("quiet", "events alone"),
            flag("ask", "asks for answers at a prompt, where the walk can also be stepped"),
        ],
        run: walk::run,
    },
    Command {
        name: "header",
        arguments: "FILE",
        about: "prints a C header with the program's names, verdict and Q",
        options: &[
            with("output", "FILE", "writes it there; also -o"),
            with("prefix", "NAME", "what all names begin with; the file's name where it is not set"),
            flag("table", "the table's words too"),
        ],
        run: header::run,
    },
    Command {
        name: "table",
        arguments: "FILE -o OUT",
        about: "writes the table file of a finishing program",
        options: &[
            with("output", "OUT", "the file that is written; also -o"),
            flag("not-finishing", "writes it also where the program is not finishing"),
        ],
        run: table::run,
    },
    Command {
        name: "part",
        arguments: "COMMON PART -o OUT",
        about: "translates one part of a program with its common part and writes its object",
        options: &[with("output", "OUT", "the file that is written; also -o")],
        run: part::run,
    },
    Command {
        name: "link",
        arguments: "COMMON PART..",
        about: "translates the parts of a program separately and links them in that order",
        options: &[
            flag("list", "prints the table as the lister does that of one text"),
            with("output", "OUT", "writes the table file; also -o"),
            flag("not-finishing", "writes it also where the program is not finishing"),
        ],
        run: link::run,
    },
    Command {
        name: "verify",
        arguments: "TEXT TABLE",
        about: "translates a text again and compares it with a table file, byte for byte",
        options: &[],
        run: verify::run,
    },
    Command {
        name: "bound",
        arguments: "FILE TOKENS REPAIRS",
        about: "prints how many steps suffice for every walk of so many tokens and repairs",
        options: &[],
        run: bound::run,
    },
    Command {
        name: "load",
        arguments: "TABLE",
        about: "says what the loader says of a table file",
        options: &[],
        run: load::run,
    },
    Command {
        name: "admit",
        arguments: "TABLE --grant SET",
        about: "says whether each operation that a table file can reach is granted",
        options: &[
            with("grant", "SET", "the granted set, a bit for each operation"),
            with("grant-names", "FILE", "the granted operations by name, a line each; wants --text"),
            with("text", "FILE", "the text of the table, for names and places"),
        ],
        run: load::admit,
    },
    Command {
        name: "figures",
        arguments: "FILE BOOK..",
        about: "walks a shelf of books and prints how often each rule was executed, and which actions never were",
        options: &[
            with("lcov", "OUT", "writes the lines' counts for coverage tools"),
            flag("counts", "how often each instruction was executed too"),
        ],
        run: figures::run,
    },
    Command {
        name: "carry",
        arguments: "OLD NEW",
        about: "says for each rule of a text whether a reading position in it is carried to a new text, and why not",
        options: &[
            with("walk", "FILE", "the bytes of a walk over the old text's table, which is carried"),
            with("output", "OUT", "writes the carried walk there; also -o"),
        ],
        run: carry::run,
    },
    Command {
        name: "certify",
        arguments: "FILE",
        about: "prints what a release note rests on: digests, verdict, Q, theorems, toolchain and commit",
        options: &[with("output", "NOTE", "writes it there; also -o")],
        run: certify::run,
    },
];

pub fn run(session: &mut Session, given: &[OsString]) -> Done {
    let Some((first, rest)) = given.split_first() else {
        session.err(&help());
        return Ok(Status::Unusable);
    };
    match first.to_str() {
        Some("--help" | "-h" | "help") => {
            session.out(&help())?;
            return Ok(Status::Yes);
        }
        Some("--version") => {
            session.out(&format!("sst {}\n", env!("SST_VERSION")))?;
            return Ok(Status::Yes);
        }
        _ => {}
    }
    let Some(command) = COMMANDS.iter().find(|command| first == command.name) else {
        return Err(Trouble::Usage(format!("there is no subcommand `{}`", first.to_string_lossy())));
    };
    if rest.iter().take_while(|word| *word != "--").any(|word| word == "--help" || word == "-h") {
        session.out(&help_of(command))?;
        return Ok(Status::Yes);
    }
    (command.run)(session, &parse(rest, command.options)?)
}

fn help() -> String {
    let mut out = "sst SUBCOMMAND ..: S/SL programs, over the proved library\n\n".to_string();
    for command in &COMMANDS {
        out.push_str(&format!("  sst {} {}\n      {}\n", command.name, command.arguments, command.about));
    }
    out.push_str(
        "\nsst SUBCOMMAND --help lists its options; a file `-` is standard input.\n\
         Status: 0 yes; 1 what was asked about is turned down; 2 wrong use, or a file that cannot be read or written;\n\
         3 the library and the second processor disagree.\n",
    );
    out
}

fn help_of(command: &Command) -> String {
    let mut out = format!("sst {} {}\n    {}\n", command.name, command.arguments, command.about);
    for option in command.options {
        let value = option.value.map(|value| format!(" {value}")).unwrap_or_default();
        out.push_str(&format!("  {:26}{}\n", format!("--{}{value}", option.name), option.about));
    }
    out
}
