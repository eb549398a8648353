//! Runs whose state is kept in a file: written with a trailer that tells its netlist
//! and its format, and gone on with under that netlist alone. With --bare the state
//! stands alone in its file, as a hub has it in its memory.

use super::Stop;
use crate::answers;
use crate::args::Args;
use crate::files;
use crate::input::{Circuit, Given};
use crate::json::Json;
use crate::layout::in_flight_in;
use crate::names::Names;
use crate::product;
use crate::refusals;
use crate::store::Store;
use crate::trailer::Trailer;
use crate::types::{Answer, Done, Fault, Format, Mode, Refusal, Wiring, DONE, OPEN, REFUSED};
use crate::wiring;

/// A state, and what stands behind it in its file.
pub struct Kept {
    pub mode: Mode,
    pub state: Vec<u8>,
    /// None for a bare state.
    pub trailer: Option<Trailer>,
    /// Those of the program, or else those that the state was begun with.
    names: Names,
}

impl Kept {
    /// A state that was begun on a circuit.
    pub fn begun(args: &Args, circuit: &Circuit, format: Format, state: Vec<u8>) -> Kept {
        let (names, mode) = (circuit.names(), circuit.mode(format));
        let trailer = (!args.flag("bare")).then(|| Trailer {
            names: names.text(),
            ..Trailer::new(mode, &circuit.file)
        });
        Kept {
            mode,
            state,
            trailer,
            names,
        }
    }

    /// The state in a file's bytes, which is to go on under this circuit, which came from
    /// FILE.
    fn of(
        args: &Args,
        (name, bytes): (&str, &[u8]),
        circuit: &Circuit,
        file: &str,
    ) -> Result<Kept, Fault> {
        let (name, bare) = (files::shown(name), args.flag("bare"));
        let (state, trailer) = match (Trailer::split(bytes), bare) {
            (Some((state, trailer)), false) => (state, Some(trailer)),
            (None, true) => (bytes, None),
            (Some(_), true) => {
                let message = format!("{name} tells of which netlist it is; leave --bare out");
                return Err(args.fault(message));
            }
            (None, false) => {
                return Err(refused(format!(
                    "{name} doesn't tell of which netlist it is: it is no state, or was cut off, \
                     or is a bare one; give --bare if it is a bare state of {file}"
                )))
            }
        };
        let asked = asked_format(args);
        let mode = match &trailer {
            Some(trailer) => trailer.mode,
            None => circuit.mode(asked),
        };
        if args.flag("compact") && mode.format != asked {
            return Err(args.fault(format!("{name} is a full state; leave --compact out")));
        }
        if args.flag("functional") && mode.wiring == Wiring::Imperative {
            let message = "was begun without --functional; leave it out here, too";
            return Err(args.fault(format!("{name} {message}")));
        }
        if trailer
            .as_ref()
            .is_some_and(|own| !own.is_of(&circuit.file))
        {
            return Err(refused(format!(
                "{name} is a state of another netlist than that of {file}: the program has changed \
                 since the run was begun, or is another one, or is given another --pulse; go on \
                 with what it was begun with, or begin anew with 'hub begin'"
            )));
        }
        let names = match (&circuit.program, &trailer) {
            (None, Some(trailer)) => Names::of_text(&trailer.names),
            _ => circuit.names(),
        };
        Ok(Kept {
            mode,
            state: state.to_vec(),
            trailer,
            names,
        })
    }

    pub fn write(&self, name: &str) -> Result<(), Fault> {
        let trailer = self.trailer.as_ref().map(Trailer::bytes);
        files::write(
            name,
            &[&self.state[..], &trailer.unwrap_or_default()].concat(),
        )
    }

    /// Tells the answer of a run that had these words before and has come to this
    /// state.
    pub fn answered(&self, args: &Args, circuit: &Circuit, start: &Store, answer: &Answer) -> Done {
        let last = self.contents(circuit, answer);
        let in_flight = in_flight_in(&self.state);
        let idle = product::is_idle(self.mode, &circuit.file, &self.state);
        let output = match args.flag("json") {
            true => {
                let mut fields = answers::fields(&self.names, answer, &last);
                let wiring = wiring::name(self.mode.wiring);
                fields.push(("circuit", Json::text(wiring)));
                fields.push(("in_flight", Json::number(in_flight)));
                fields.push(("idle", Json::Bool(idle)));
                Json::Object(fields).line()
            }
            false => {
                let busy = match (idle, in_flight) {
                    (true, _) => "idle".to_string(),
                    (false, 0) => "none in flight".to_string(),
                    (false, number) => format!("{number} in flight"),
                };
                let all = args.flag("all");
                let free = match self.mode.wiring {
                    Wiring::Functional if !answer.ended && !idle => answers::FREE,
                    _ => "",
                };
                let names = &self.names;
                let told = answers::text_of_state(names, start, answer, &last, &busy, all);
                (told + free).into_bytes()
            }
        };
        let exit = if answer.ended { DONE } else { OPEN };
        Done { exit, output }
    }

    /// The words that an answer tells, and the elements of this state.
    fn contents(&self, circuit: &Circuit, answer: &Answer) -> Store {
        let cells = circuit.netlist.cells.len();
        product::contents(self.mode.format, answer, &self.state, cells)
    }
}

/// The format that --compact asks for.
pub fn asked_format(args: &Args) -> Format {
    match args.flag("compact") {
        true => Format::Compact,
        false => Format::Full,
    }
}

fn refused(message: String) -> Fault {
    let exit = REFUSED;
    Fault { exit, message }
}

/// Makes a call on the state in a file, writes it back or to the file of -o, and
/// tells the answer. A refused one is left as it is, unless the call has brought
/// it to its last good instant.
pub fn on_state(
    args: &Args,
    call: impl FnOnce(Mode, &[u8], &mut [u8]) -> Result<Answer, Refusal>,
) -> Result<Done, Stop> {
    let [file, name] = args.exactly(["FILE", "STATE"])?;
    let given = Given::read(args, file)?;
    let bytes = files::read(name)?;
    // The circuit is the one that the state was begun with.
    let own = Trailer::split(&bytes).map(|(_, trailer)| trailer.mode.wiring);
    let wiring = own.unwrap_or(given.aside.wiring);
    let circuit = given.wired(args, wiring)?.circuit()?;
    let mut kept = Kept::of(args, (name, &bytes), &circuit, file)?;
    let refused = |kept: &Kept, met| refusals::of_state(name, &circuit.netlist, &kept.state, met);
    // By none: the words as they are.
    let before = product::go(kept.mode, &circuit.file, &mut kept.state, 0)
        .map_err(|met| refused(&kept, met))?;
    let start = kept.contents(&circuit, &before);
    let answer = call(kept.mode, &circuit.file, &mut kept.state);
    if matches!(answer, Ok(_) | Err(Refusal { number: 26, .. })) {
        kept.write(args.value("o").unwrap_or(name))?;
    }
    match answer {
        Ok(answer) => Ok(kept.answered(args, &circuit, &start, &answer)),
        Err(met) => Err(refused(&kept, met).into()),
    }
}
