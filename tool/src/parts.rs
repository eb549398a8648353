//! Parts: programs that several have written and compiled, each with its netlist file,
//! and what is told where the product doesn't join them.

use crate::answers::counted;
use crate::args::Args;
use crate::commands::Stop;
use crate::files;
use crate::input::{Form, Given};
use crate::layout::{file_length, FILE};
use crate::product;
use crate::refusals::{self, Report};
use crate::types::{Fault, Refusal};
use bindings::calls;
use std::path::Path;

/// A program, and its netlist: the one that stands beside it, or else the one that it
/// is compiled to now.
pub struct Part {
    given: Given,
    program: Vec<u8>,
    file: Vec<u8>,
    /// The name of the netlist that stands beside it.
    pub beside: Option<String>,
}

impl Part {
    /// Reads a program, and NAME.net beside it, where there is one. Its pulse length is
    /// the one of that netlist, unless --pulse says one.
    pub fn read(args: &Args, name: &str) -> Result<Part, Stop> {
        let beside = beside(name);
        let given = match beside.as_deref().and_then(pulse) {
            Some(pulse) => Given::read(&args.or("pulse", pulse), name)?,
            None => Given::read(args, name)?,
        };
        if given.aside.procedures > 0 {
            let own = counted(given.aside.procedures, "procedure");
            return Err(Fault::usage(format!(
                "{name} has {own}, and a part has none; write the statements of procedures where they are called"
            ))
            .into());
        }
        let program = given.program()?.bytes;
        let file = match &beside {
            Some(net) => netlist(&given, net)?,
            None => product::compile(given.beside(), &program).map_err(|met| given.refused(met))?,
        };
        Ok(Part {
            given,
            program,
            file,
            beside,
        })
    }

    fn lent(&self) -> values::Part<'_> {
        values::Part {
            program: &self.program,
            file: &self.file,
            pulse: self.given.aside.pulse,
        }
    }
}

/// The name of the netlist beside a program, where there is one.
fn beside(name: &str) -> Option<String> {
    let net = Path::new(name).with_extension("net");
    let there = name != files::STANDARD && net != Path::new(name) && net.is_file();
    there.then(|| net.to_string_lossy().into_owned())
}

/// The pulse length that an accepted netlist file tells.
fn pulse(net: &str) -> Option<u8> {
    let file = files::read(net).ok()?;
    product::read_netlist(&file)
        .ok()
        .map(|netlist| netlist.pulse)
}

/// A netlist file that the product accepts.
fn netlist(given: &Given, net: &str) -> Result<Vec<u8>, Stop> {
    let listed = Given {
        name: net.to_string(),
        form: Form::Netlist,
        bytes: files::read(net)?,
        aside: given.aside.clone(),
        long: None,
    };
    Ok(listed.circuit()?.file)
}

/// The netlist file of the parts' sequence, and the number of its cells.
pub fn join(parts: &[Part]) -> Result<(Vec<u8>, usize), Stop> {
    let lent: Vec<_> = parts.iter().map(Part::lent).collect();
    let table = parts.first().and_then(|part| part.given.beside().table);
    let mut file = vec![0; FILE];
    let shape = calls::join(table, &lent, &mut file).map_err(|met| report(parts, met))?;
    let cells = usize::from(shape.cells);
    file.truncate(file_length(cells));
    Ok((file, cells))
}

/// What is told of a refusal of parts that were all accepted by themselves.
fn report(parts: &[Part], refusal: Refusal) -> Report {
    let plain = |name: &str| refusals::plain(name, refusal);
    let part = match parts.get(refusal.place) {
        Some(part) if (2..=8).contains(&parts.len()) => part,
        _ => {
            return Report {
                found: Some(counted(parts.len(), "part")),
                ..plain("the parts")
            }
        }
    };
    let (name, net) = (&part.given.name, part.beside.as_deref());
    match refusal.number {
        29 => Report {
            rule: "the parts up to this one, with a sequence between each two, have more than 200 nodes"
                .to_string(),
            found: Some(counted(nodes(&parts[..=refusal.place]), "node")),
            remedy: "join fewer parts, or make them shorter".to_string(),
            ..plain(name)
        },
        30 => Report {
            found: Some(format!(
                "pulses of {}, and those of {} are of {}",
                counted(part.given.aside.pulse.into(), "instant"),
                parts[0].given.name,
                counted(parts[0].given.aside.pulse.into(), "instant")
            )),
            ..plain(name)
        },
        31 => Report {
            remedy: format!("compile {name} again, with the same --times and --pulse"),
            ..plain(net.unwrap_or(name))
        },
        _ => plain(name),
    }
}

/// The nodes of parts and of the sequences between them.
fn nodes(parts: &[Part]) -> usize {
    let own: usize = parts.iter().map(|part| part.program.len() / 4).sum();
    own + parts.len() - 1
}
