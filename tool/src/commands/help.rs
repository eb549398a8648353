//! `hub help`: the commands, or one of them with an example.

use super::{manual, named, usage, Command, Stop, COMMANDS};
use crate::args::{Args, Options};
use crate::json::Json;
use crate::types::Done;

pub const COMMAND: Command = Command {
    name: "help",
    usage: "[COMMAND | --man | --bash]",
    about: "lists the commands, or tells one with an example",
    more:
        "--man prints all of them as a man page, --bash a completion for bash, which is read by\n\
        'source'.",
    example: "hub help run",
    options: Options::plain(&[], &["bash", "man"]),
    run,
};

fn run(args: &Args) -> Result<Done, Stop> {
    let json = args.flag("json");
    for (flag, written) in [
        ("man", manual::man as fn() -> String),
        ("bash", manual::bash as fn() -> String),
    ] {
        if args.flag(flag) {
            let text = written();
            return Ok(Done::printing(match json {
                true => Json::text(text).line(),
                false => text.into_bytes(),
            }));
        }
    }
    if args.given.is_empty() {
        return Ok(Done::printing(match json {
            true => Json::list(COMMANDS, |command| fields(command)).line(),
            false => (overview() + "\n").into_bytes(),
        }));
    }
    let [name] = args.exactly(["COMMAND"])?;
    Ok(page(named(name)?, json))
}

/// The page of a command, for a reader or for scripts.
pub fn page(command: &Command, json: bool) -> Done {
    Done::printing(match json {
        true => fields(command).line(),
        false => of(command).into_bytes(),
    })
}

fn fields(command: &Command) -> Json {
    Json::Object(vec![
        ("command", Json::text(command.name)),
        ("usage", Json::text(usage(command))),
        ("about", Json::text(command.about)),
        ("more", Json::text(command.more)),
        ("example", Json::text(command.example)),
    ])
}

/// The list of the commands, without the last line's end.
pub fn overview() -> String {
    let mut text = String::from("the tool for people who write hub programs\n\n");
    for command in COMMANDS {
        text += &format!("  hub {:10} {}\n", command.name, command.about);
    }
    text + "\n'hub help COMMAND' tells more; every command takes --json; 'hub --version' tells which.\n\
        Exit status: 0 ended or done, 1 refused, 2 open, 64 wrong usage.\n\
        In the repository './hub prove' proves the archive that the tool is built over, and\n\
        './hub install PREFIX' puts the tool, the library and their pages below PREFIX."
}

fn of(command: &Command) -> String {
    let Command {
        about,
        more,
        example,
        ..
    } = command;
    let usage = usage(command);
    let more = match *more {
        "" => String::new(),
        more => format!("\n{more}\n"),
    };
    format!("usage: {usage}\n\n{about}\n{more}\nexample: {example}\n")
}
