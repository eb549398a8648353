//! The words after a command: files and such in order, `--name value`, `-o
//! value`, and flags.

use crate::source::nearest;
use crate::types::Fault;
use std::collections::BTreeMap;
use std::fmt::Display;
use std::num::IntErrorKind;

/// The options that a command takes.
#[derive(Clone, Copy, Debug)]
pub struct Options {
    /// What it takes, and with it what is said of a program.
    takes: Takes,
    /// With a value, and without.
    valued: Names,
    flags: Names,
}

/// What a command is about.
#[derive(Clone, Copy, Debug, PartialEq, Eq)]
enum Takes {
    /// A program in whatever form.
    Program,
    /// One whose circuit is made or run, or a netlist.
    Circuit,
    Outline,
    /// One that is run with gates that take their time.
    Slow,
    Other,
}

type Names = &'static [&'static str];

/// The name of an option, and what its value is called, where it has one.
type Row = (&'static str, Option<&'static str>);

/// What is said of a program.
const OF_PROGRAMS: [Row; 4] = [
    ("as", Some("FORM")),
    ("times", Some("T")),
    ("procedures", Some("N")),
    ("pulse", Some("W")),
];

#[derive(Clone, Debug, Default)]
pub struct Args {
    /// The words that are no options.
    pub given: Vec<String>,
    options: BTreeMap<String, String>,
    usage: String,
}

impl Args {
    /// Parses the words after a command, whose usage is told where they don't
    /// fit.
    pub fn parse(options: Options, usage: String, words: &[String]) -> Result<Args, Fault> {
        let mut args = Args {
            usage,
            ..Args::default()
        };
        let mut words = words.iter();
        while let Some(word) = words.next() {
            let Some((name, value)) = option(word) else {
                args.given.push(word.clone());
                continue;
            };
            let value = match (options.takes(name), value) {
                (Some(true), Some(value)) => value.to_string(),
                (Some(true), None) => match words.next() {
                    Some(value) if !value.starts_with("--") => value.clone(),
                    _ => return Err(args.fault(format!("{} wants a value", dashed(name)))),
                },
                (Some(false), None) => String::new(),
                (Some(false), Some(_)) => {
                    return Err(args.fault(format!("{} takes no value", dashed(name))))
                }
                (None, _) => return Err(args.fault(options.why_not(name))),
            };
            if args.options.insert(name.to_string(), value).is_some() {
                return Err(args.fault(format!("{} stands twice", dashed(name))));
            }
        }
        Ok(args)
    }

    /// A fault of the command line, with the usage.
    pub fn fault(&self, message: impl Display) -> Fault {
        Fault::usage(format!("{message}\nusage: {}", self.usage))
    }

    fn missing(&self, name: &str) -> Fault {
        self.fault(format!("{} and its value are missing", dashed(name)))
    }

    pub fn flag(&self, name: &str) -> bool {
        self.options.contains_key(name)
    }

    pub fn value(&self, name: &str) -> Option<&str> {
        self.options.get(name).map(String::as_str)
    }

    /// The same words, and an option with a value, unless it was given.
    pub fn or(&self, name: &str, value: impl ToString) -> Args {
        let mut args = self.clone();
        let option = args.options.entry(name.to_string());
        option.or_insert_with(|| value.to_string());
        args
    }

    /// The value of an option that must be given.
    pub fn needed(&self, name: &str) -> Result<&str, Fault> {
        self.value(name).ok_or_else(|| self.missing(name))
    }

    /// An option that was given and is about a program, other than what the file is.
    pub fn said_of_program(&self) -> Option<&'static str> {
        let mut names = OF_PROGRAMS.iter().map(|(name, _)| *name);
        names.find(|name| *name != "as" && self.flag(name))
    }

    /// An option that is a decimal number. One that four bytes can't hold is
    /// taken as the largest that they can, which the product refuses as well.
    pub fn number(&self, name: &str) -> Result<Option<u32>, Fault> {
        let Some(value) = self.value(name) else {
            return Ok(None);
        };
        let digits = value.replace(',', "");
        match digits.parse() {
            Ok(number) => Ok(Some(number)),
            Err(error) if *error.kind() == IntErrorKind::PosOverflow => Ok(Some(u32::MAX)),
            Err(_) => Err(self.fault(format!("{} wants a number, not '{value}'", dashed(name)))),
        }
    }

    /// The same of one byte.
    pub fn byte(&self, name: &str) -> Result<Option<u8>, Fault> {
        let number = self.number(name)?;
        Ok(number.map(|number| number.try_into().unwrap_or(u8::MAX)))
    }

    /// A file, and the words after it.
    pub fn file_and_words(&self) -> Result<(&str, &[String]), Fault> {
        match self.given.split_first() {
            Some((file, words)) => Ok((file, words)),
            None => Err(self.fault("FILE is missing")),
        }
    }

    /// Exactly so many words, each named in the usage.
    pub fn exactly<const N: usize>(&self, names: [&str; N]) -> Result<[&str; N], Fault> {
        if let Some(name) = names.get(self.given.len()) {
            return Err(self.fault(format!("{name} is missing")));
        }
        if let Some(extra) = self.given.get(N) {
            return Err(self.fault(format!("'{extra}' is one word too many")));
        }
        Ok(std::array::from_fn(|k| self.given[k].as_str()))
    }
}

impl Options {
    /// Of a command that takes a program.
    pub const fn of_program(valued: Names, flags: Names) -> Options {
        Options {
            takes: Takes::Program,
            ..Options::plain(valued, flags)
        }
    }

    /// Of a command that makes or runs the circuit of a program.
    pub const fn of_circuit(valued: Names, flags: Names) -> Options {
        Options {
            takes: Takes::Circuit,
            ..Options::plain(valued, flags)
        }
    }

    /// Of a command that takes an outline.
    pub const fn of_outline(valued: Names, flags: Names) -> Options {
        Options {
            takes: Takes::Outline,
            ..Options::plain(valued, flags)
        }
    }

    /// Of a command that runs a program with gates that take their time.
    pub const fn of_slow(valued: Names, flags: Names) -> Options {
        Options {
            takes: Takes::Slow,
            ..Options::plain(valued, flags)
        }
    }

    /// Of a command that takes none.
    pub const fn plain(valued: Names, flags: Names) -> Options {
        Options {
            takes: Takes::Other,
            valued,
            flags,
        }
    }

    /// All options: their names, and what their values are called where they have one.
    fn all(self) -> impl Iterator<Item = Row> {
        let valued = self.valued.iter().map(|name| (*name, Some("VALUE")));
        let flags = self.flags.iter().map(|name| (*name, None));
        valued.chain(flags).chain(self.shared())
    }

    /// Those that many commands take: what is said of a program, and --json. Of an outline
    /// it is known what it is.
    fn shared(self) -> impl Iterator<Item = Row> {
        let said = move |name: &str| match self.takes {
            Takes::Program | Takes::Circuit => true,
            Takes::Outline => name != "as",
            Takes::Slow => name != "pulse",
            Takes::Other => false,
        };
        let of_program = OF_PROGRAMS.into_iter();
        let of_program = of_program.filter(move |(name, _)| said(name));
        let functional = (self.takes == Takes::Circuit).then_some(("functional", None));
        of_program.chain(functional).chain([("json", None)])
    }

    /// Whether an option takes a value, if there is one of this name.
    fn takes(self, name: &str) -> Option<bool> {
        let own = self.all().find(|(option, _)| *option == name);
        own.map(|(_, value)| value.is_some())
    }

    /// Why there is no option of this name: it is another command's, or none at all.
    fn why_not(self, name: &str) -> String {
        let how = match (self.takes, name) {
            (Takes::Slow, "pulse") => Some("with pulses of 1"),
            (Takes::Slow, "functional") => Some("in the imperative circuit"),
            _ => None,
        };
        let (own, near) = (
            dashed(name),
            nearest(name, self.all().map(|(name, _)| name)),
        );
        match (how, near) {
            (Some(how), _) => {
                format!("{own} isn't taken here: gates that take their time are run {how}")
            }
            (None, Some(near)) => format!("{own} is no option; did you mean {}?", dashed(near)),
            (None, None) => format!("{own} is no option"),
        }
    }

    /// The names of all options, as they are typed.
    pub fn names(self) -> Vec<String> {
        self.all().map(|(name, _)| dashed(name)).collect()
    }

    /// The usage of the options that many commands share.
    pub fn usage(self) -> String {
        let usage = |(name, value)| match value {
            Some(value) => format!(" [{} {value}]", dashed(name)),
            None => format!(" [{}]", dashed(name)),
        };
        self.shared().map(usage).collect()
    }
}

/// The name of an option, and the value after its '='.
fn option(word: &str) -> Option<(&str, Option<&str>)> {
    if word == "-o" {
        return Some(("o", None));
    }
    let name = word.strip_prefix("--")?;
    Some(match name.split_once('=') {
        Some((name, value)) => (name, Some(value)),
        None => (name, None),
    })
}

pub fn dashed(name: &str) -> String {
    let dashes = if name.len() == 1 { "-" } else { "--" };
    format!("{dashes}{name}")
}
