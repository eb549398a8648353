//! The file that a command is about: a text, an outline, a program's bytes, a
//! netlist file or a list of cells, with a table of operator times where one is given, the number
//! of procedures and the pulse length.

use crate::answers::counted;
use crate::args::Args;
use crate::aside::Aside;
use crate::assemble::assemble;
use crate::commands::Stop;
use crate::files;
use crate::lines;
use crate::listed;
use crate::listing::Listed;
use crate::names::Names;
use crate::origin::{self, Trace};
use crate::product;
use crate::refusals;
use crate::source::{self, Place, Said, Source};
use crate::types::{Beside, Fault, Format, Mode, Netlist, Node, Refusal, Wiring};

#[derive(Clone, Copy, Debug, PartialEq, Eq)]
pub enum Form {
    /// As the product reads it, or else as the tool does: a long one.
    Text,
    /// As the product reads it, and no other.
    Short,
    Outline,
    Program,
    Netlist,
    /// A netlist as a list of its cells.
    List,
}

impl Form {
    /// What --as says that a file is, or else its name: NAME.outline an outline,
    /// NAME.prog a program's bytes, NAME.net a netlist, NAME.list a list of cells,
    /// others texts.
    pub fn of(args: &Args, name: &str) -> Result<Form, Fault> {
        match args.value("as") {
            Some(word) => form_named(word).ok_or_else(|| {
                let forms = "text, short, outline, program, netlist or list";
                args.fault(format!("--as takes {forms}, not '{word}'"))
            }),
            None => Ok(form_of(name)),
        }
    }

    /// Whether it is a text, short or long.
    pub fn is_text(self) -> bool {
        matches!(self, Form::Text | Form::Short)
    }

    /// Whether it tells a circuit and no program.
    fn is_circuit(self) -> bool {
        matches!(self, Form::Netlist | Form::List)
    }
}

/// A file as it was given.
#[derive(Clone, Debug)]
pub struct Given {
    pub name: String,
    pub form: Form,
    pub bytes: Vec<u8>,
    pub aside: Aside,
    /// The tool's reading of a text that the product doesn't read.
    pub long: Option<Source>,
}

/// An accepted program. Its nodes have places if it came as a text or an
/// outline.
#[derive(Clone, Debug)]
pub struct Program {
    pub procedures: usize,
    pub bytes: Vec<u8>,
    pub nodes: Vec<Node>,
    pub places: Option<Vec<Place>>,
    /// Whether it came as a long text, the names that it has there, and how its nodes
    /// were written.
    pub long: bool,
    pub names: Names,
    pub said: Vec<Said>,
}

/// An accepted netlist, with the program that it was compiled from and the
/// origins of its cells, unless it came as a netlist file.
#[derive(Clone, Debug)]
pub struct Circuit {
    pub wiring: Wiring,
    pub file: Vec<u8>,
    pub netlist: Netlist,
    pub program: Option<(Program, Trace)>,
    /// The list that it was wired by.
    pub listed: Option<Listed>,
}

impl Circuit {
    /// The names that its program or its list has.
    pub fn names(&self) -> Names {
        match (&self.program, &self.listed) {
            (Some((program, _)), _) => program.names.clone(),
            (None, Some(listed)) => listed::names(listed),
            (None, None) => Names::default(),
        }
    }

    /// How it is run on a state of this format.
    pub fn mode(&self, format: Format) -> Mode {
        Mode {
            format,
            wiring: self.wiring,
        }
    }
}

impl Given {
    /// Reads the one FILE that a command is given.
    pub fn only(args: &Args) -> Result<Given, Stop> {
        let [file] = args.exactly(["FILE"])?;
        Given::read(args, file)
    }

    /// Reads FILE, of whatever form, and the file of --times.
    pub fn read(args: &Args, name: &str) -> Result<Given, Stop> {
        Given::read_as(args, name, Form::of(args, name)?)
    }

    /// Reads FILE, which is of this form, and the file of --times.
    pub fn read_as(args: &Args, name: &str, form: Form) -> Result<Given, Stop> {
        if let Some(option) = args.said_of_program().filter(|_| form.is_circuit()) {
            let message = "goes with a program, and a netlist is compiled already";
            return Err(args.fault(format!("--{option} {message}")).into());
        }
        let mut given = Given {
            name: files::shown(name).to_string(),
            form,
            aside: Aside::of(args)?,
            bytes: files::read(name)?,
            long: None,
        };
        if form == Form::Text {
            given.read_long()?;
        }
        if form == Form::Outline || given.long.is_some() {
            let (said, own) = (args.value("procedures"), given.source()?.procedures);
            if said.is_some() && given.aside.procedures != own {
                let message = format!("{name} has {}", counted(own, "procedure"));
                return Err(args.fault(message).into());
            }
            given.aside.procedures = own;
        }
        let wiring = given.aside.wiring;
        Ok(given.wired(args, wiring)?)
    }

    /// The same file for this circuit. Beside a program that is to become a functional one
    /// nothing is given but a table.
    pub fn wired(mut self, args: &Args, wiring: Wiring) -> Result<Given, Fault> {
        self.aside.wiring = wiring;
        if wiring == Wiring::Imperative || self.form.is_circuit() {
            return Ok(self);
        }
        let Aside {
            procedures, pulse, ..
        } = self.aside;
        if args.flag("procedures") && procedures > 0 {
            let message =
                "--procedures goes with the imperative circuit: a functional one is made \
                 of a program without procedures";
            return Err(args.fault(message));
        }
        if procedures > 0 {
            let (name, own) = (&self.name, counted(procedures, "procedure"));
            return Err(Fault::usage(format!(
                "{name} has {own}, and a functional circuit is made of a program without any; \
                 write the statements of procedures where they are called, or take the imperative circuit"
            )));
        }
        if pulse != 1 {
            let message =
                "--pulse goes with the imperative circuit: the pulses of a functional one \
                 are one instant long";
            return Err(args.fault(message));
        }
        Ok(self)
    }

    /// Reads a text that the product, which is asked first, finds no words or no
    /// order in.
    pub fn read_long(&mut self) -> Result<(), Stop> {
        let met = product::read_text(self.beside(), &self.bytes).err();
        if !met.is_some_and(|met| matches!(met.number, 17 | 18)) {
            return Ok(());
        }
        let read = source::read(&self.bytes).and_then(|mut source| {
            source.settle(self.beside())?;
            Ok(source)
        });
        let read = read.map_err(|broken| refusals::of_long(self, &broken))?;
        self.long = Some(read);
        Ok(())
    }

    /// The names that a long text has.
    pub fn names(&self) -> Names {
        let long = self.long.as_ref();
        long.map(|source| source.names.clone()).unwrap_or_default()
    }

    /// What is given beside the program.
    pub fn beside(&self) -> Beside<'_> {
        self.aside.lent()
    }

    /// The program, accepted by the product.
    pub fn program(&self) -> Result<Program, Stop> {
        let (bytes, source) = match self.form {
            Form::Netlist | Form::List => {
                let name = &self.name;
                let message = format!("{name} is a netlist, without its program; give the program");
                return Err(Fault::usage(message).into());
            }
            Form::Program => (self.bytes.clone(), None),
            Form::Text | Form::Short if self.long.is_none() => {
                let read = product::read_text(self.beside(), &self.bytes);
                (read.map_err(|met| self.refused(met))?, Some(self.source()?))
            }
            Form::Text | Form::Short | Form::Outline => {
                let source = self.source()?;
                (product::program_bytes(&source.nodes), Some(source))
            }
        };
        product::check(self.beside(), &bytes).map_err(|met| self.refused(met))?;
        let nodes = product::nodes(&bytes);
        if source.as_ref().is_some_and(|source| source.nodes != nodes) {
            return Err(self.misread().into());
        }
        let places = source.as_ref().map(|source| source.places.clone());
        let Source { names, said, .. } = source.unwrap_or_default();
        Ok(Program {
            procedures: self.aside.procedures,
            bytes,
            nodes,
            places,
            long: self.long.is_some(),
            names,
            said,
        })
    }

    /// The tool's own reading of a text or an outline.
    pub fn source(&self) -> Result<Source, Fault> {
        if self.form == Form::Outline {
            let text = lines::text_of(&self.name, &self.bytes)?;
            return assemble(text).map_err(|wrong| wrong.fault(&self.name));
        }
        if let Some(long) = &self.long {
            return Ok(long.clone());
        }
        source::read(&self.bytes).map_err(|_| self.misread())
    }

    /// The netlist, accepted or compiled by the product.
    pub fn circuit(&self) -> Result<Circuit, Stop> {
        if self.form == Form::Netlist {
            let netlist = product::read_netlist(&self.bytes).map_err(|met| self.refused(met))?;
            if self.aside.wiring == Wiring::Functional {
                product::check_last(&self.bytes).map_err(|met| self.refused(met))?;
            }
            return Ok(Circuit {
                wiring: self.aside.wiring,
                file: self.bytes.clone(),
                netlist,
                program: None,
                listed: None,
            });
        }
        if self.form == Form::List {
            let text = lines::text_of(&self.name, &self.bytes)?;
            let (listed, file) = listed::accepted(&self.name, text, self.aside.wiring)?;
            return Ok(Circuit {
                wiring: self.aside.wiring,
                file,
                netlist: listed.netlist.clone(),
                program: None,
                listed: Some(listed),
            });
        }
        let program = self.program()?;
        let compiled = product::compile(self.beside(), &program.bytes);
        let file = compiled.map_err(|met| self.refused(met))?;
        let netlist = product::read_netlist(&file).map_err(|met| {
            Fault::internal(format!("the compiled netlist of {}: {met}", self.name))
        })?;
        let trace = match self.aside.wiring {
            Wiring::Imperative => origin::trace(program.procedures, &program.nodes, &netlist)?,
            Wiring::Functional => origin::trace_functional(&program.nodes, &netlist)?,
        };
        Ok(Circuit {
            wiring: self.aside.wiring,
            file,
            netlist,
            program: Some((program, trace)),
            listed: None,
        })
    }

    /// Why a command stops at a refusal that this file met.
    pub fn refused(&self, refusal: Refusal) -> Stop {
        match refusals::report(self, refusal) {
            Ok(report) => report.into(),
            Err(fault) => fault.into(),
        }
    }

    /// The tool's own reading isn't the product's.
    pub fn misread(&self) -> Fault {
        let name = &self.name;
        Fault::internal(format!("the tool reads {name} otherwise than the product"))
    }
}

fn form_named(word: &str) -> Option<Form> {
    match word {
        "text" => Some(Form::Text),
        "short" => Some(Form::Short),
        "outline" => Some(Form::Outline),
        "program" => Some(Form::Program),
        "netlist" => Some(Form::Netlist),
        "list" => Some(Form::List),
        _ => None,
    }
}

fn form_of(name: &str) -> Form {
    if name.ends_with(".prog") {
        Form::Program
    } else if name.ends_with(".outline") {
        Form::Outline
    } else if name.ends_with(".net") {
        Form::Netlist
    } else if name.ends_with(".list") {
        Form::List
    } else {
        Form::Text
    }
}
