//! Two peers against each other, call by call: answers, places and every
//! lent byte. And each by itself: a refused call changes no lent byte, unless it
//! is refusal 26.

use crate::against_slow;
use crate::against_text;
use crate::damage;
use crate::formats::instant_of;
use crate::job::{Ask, Call, Job, Mode, MODES, MOST_INSTANT};
use crate::lend::*;
use crate::xorshift::Random;
use peers::{Peer, Reply};
use std::fmt::Debug;
use values::{Circuit, Format, Refusal, Shape};

/// Damaged netlists, cells and states for each job.
pub const DAMAGED: usize = 4;

pub struct Pair<'a> {
    pub left: &'a Peer,
    pub right: &'a Peer,
}

impl Pair<'_> {
    /// All calls on a job's program, and on the netlist it compiles to.
    pub fn compare(&self, job: &Job) -> Result<(), String> {
        let (given, program) = (job.given(), &job.program);
        let (file, state) = (lent(job.file_length), lent(job.state_length));
        self.same("check", &[], |peer| (peer.check)(given, program))?;
        self.same("compile", &[&file], |peer| {
            (peer.compile)(given, program, &file)
        })?;
        self.same("run_program", &[&file, &state], |peer| {
            (peer.run_program)(given, program, &job.words, job.budget, &file, &state)
        })?;
        self.same_slow_run(job)?;
        self.same("reference_run", &[], |peer| {
            (peer.reference_run)(given, program, &job.words, job.budget)
        })?;
        self.same_text(job)?;
        self.same_texts(job)?;
        let room = lent(MOST_FILE);
        let compiled = self.same("compile", &[&room], |peer| {
            (peer.compile)(given, program, &room)
        })?;
        let Ok(shape) = compiled.result else {
            return Ok(());
        };
        let file = &compiled.lent[0][..file_length(shape.cells.into())];
        self.compare_netlist(file, &job.words, &job.calls, job.damage)
    }

    /// Every value, operators' too; the room is now and then too little.
    pub fn same_slow_run(&self, job: &Job) -> Result<(), String> {
        let (table, program, words) = (job.lent_table(), &job.program, &job.words);
        let (values, work) = (lent(job.file_length), lent(16 * job.state_length));
        let budget = against_slow::budget(job);
        self.same("slow_run", &[&values, &work], |peer| {
            (peer.slow_run)(
                table,
                job.procedures,
                program,
                words,
                budget,
                &values,
                &work,
            )
        })?;
        Ok(())
    }

    /// All calls on a good netlist file, and on damaged ones.
    pub fn compare_netlist(
        &self,
        file: &[u8],
        words: &[u8],
        calls: &[Call],
        damage: u64,
    ) -> Result<(), String> {
        let random = &mut Random::new(damage);
        if let Some(shape) = self.same_reading(file, random)? {
            for mode in MODES {
                let length = state_length(mode.format, shape.cells.into());
                self.same_calls(mode, file, words, calls, length, random)?;
            }
        }
        for _ in 0..DAMAGED {
            let damaged = damage::netlist(file, random);
            self.same_reading(&damaged, random)?;
            let n = random.below(400) as u32;
            let state = lent(state_length(Format::Full, most_cells(damaged.len())));
            for circuit in Circuit::BOTH {
                self.same(&format!("run_netlist, {circuit:?}"), &[&state], |peer| {
                    peer.run_netlist_of(circuit)(&damaged, words, n, &state)
                })?;
            }
        }
        self.compare_cells(file, random)
    }

    /// Reading a file, and writing its cells, also damaged ones. Gives the
    /// shape of an accepted file.
    fn same_reading(&self, file: &[u8], random: &mut Random) -> Result<Option<Shape>, String> {
        let most = 6 * most_cells(file.len());
        let short = lent(random.below(most + 100));
        self.same("read_netlist", &[&short], |peer| {
            (peer.read_netlist)(file, &short)
        })?;
        let room = lent(most);
        let read = self.same("read_netlist", &[&room], |peer| {
            (peer.read_netlist)(file, &room)
        })?;
        let Ok(shape) = read.result else {
            return Ok(None);
        };
        let mut cells = read.lent[0][..6 * shape.cells as usize].to_vec();
        let file_room = lent(random.pick(&[511, 512, 3_584, file.len()]));
        for _ in 0..DAMAGED {
            let pulse = damage::pulse(random);
            self.same("write_netlist", &[&file_room], |peer| {
                (peer.write_netlist)(pulse, &cells, shape.finish, &file_room)
            })?;
            let place = random.below(cells.len());
            cells[place] = random.below(46) as u8;
        }
        Ok(Some(shape))
    }

    /// A beginning, the calls on its run, and calls on states that are damaged
    /// or at another instant.
    fn same_calls(
        &self,
        mode: Mode,
        file: &[u8],
        words: &[u8],
        calls: &[Call],
        length: usize,
        random: &mut Random,
    ) -> Result<(), String> {
        let room = lent(length + random.pick(&[0, 1, 500]));
        let begun = self.same("begin", &[&room], |peer| {
            peer.begin_of(mode.circuit)(mode.format, file, words, &room)
        })?;
        if begun.result.is_err() {
            return self.same_on(mode, "not begun", file, 1, &room);
        }
        let mut state = begun.lent[0][..length].to_vec();
        for call in calls {
            let buffer = lent_with(&state, call.room.around(length));
            let instant = instant_of(&state);
            let name = format!("{:?}, {mode:?}", call.ask);
            let reply = self.same(&name, &[&buffer], |peer| {
                call.ask.of(peer, mode, file, instant, &buffer)
            })?;
            if let Some(left) = reply.lent[0].get(..length) {
                state.copy_from_slice(left);
            }
        }
        for _ in 0..DAMAGED {
            let damaged = damage::state(mode.format, file, &state, random);
            let n = random.below(600) as u32;
            self.same_on(mode, "damaged", file, n, &damaged)?;
            let instant = MOST_INSTANT - 2 + random.below(4) as u32;
            state[..4].copy_from_slice(&instant.to_le_bytes());
            self.same_on(
                mode,
                "near the last instant",
                file,
                random.below(3) as u32,
                &state,
            )?;
        }
        Ok(())
    }

    /// A continuing and a start on a state of any origin.
    fn same_on(
        &self,
        mode: Mode,
        which: &str,
        file: &[u8],
        n: u32,
        state: &[u8],
    ) -> Result<(), String> {
        for ask in [Ask::Go(n), Ask::Start] {
            self.same(&format!("{ask:?}, {mode:?}, {which}"), &[state], |peer| {
                ask.of(peer, mode, file, instant_of(state), state)
            })?;
        }
        Ok(())
    }

    /// The text of hubrun; it lends nothing and refuses in words.
    fn same_text(&self, job: &Job) -> Result<(), String> {
        let words = &job.words[..job.words.len().min(WORDS - ARRAYS)];
        let input = [words, &job.budget.to_le_bytes(), &job.program].concat();
        self.same::<_, u8>("hubrun", &[], |peer| Reply {
            result: Ok(String::from_utf8((peer.hubrun_text)(&input))),
            lent: vec![],
        })
        .map(drop)
    }

    /// The calls on the texts of a job's program.
    fn same_texts(&self, job: &Job) -> Result<(), String> {
        let (file, state) = (lent(job.file_length), lent(job.state_length));
        let given = job.given();
        // What a run of a text is shows soon; a budget that is refused stays.
        let budget = match job.budget {
            0..=MOST_INSTANT => job.budget.min(100),
            refused => refused,
        };
        against_text::for_each(job, |text, room| {
            let (text, program) = (&text.bytes, lent(room));
            self.same("read_text", &[&program], |peer| {
                (peer.read_text)(given, text, &program)
            })?;
            self.same("compile_text", &[&file], |peer| {
                (peer.compile_text)(given, text, &file)
            })?;
            self.same("run_text", &[&file, &state], |peer| {
                (peer.run_text)(given, text, &job.words, budget, &file, &state)
            })
            .map(drop)
        })
    }

    /// Makes one call of both peers and gives the reply that they agree on.
    pub fn same<T: PartialEq + Debug, Element: PartialEq>(
        &self,
        name: &str,
        lent: &[&[Element]],
        call: impl Fn(&Peer) -> Reply<T, Element>,
    ) -> Result<Reply<T, Element>, String> {
        let (left, right) = (call(self.left), call(self.right));
        if left.result != right.result {
            let (left, right) = (&left.result, &right.result);
            let (first, second) = (self.left.name, self.right.name);
            return Err(format!("{name}: {first} says {left:?}, {second} {right:?}"));
        }
        if left.lent != right.lent {
            return Err(format!("{name}: the lent bytes differ afterwards"));
        }
        let may_change = matches!(left.result, Ok(_) | Err(Refusal { number: 26, .. }));
        if !may_change && left.lent != lent {
            return Err(format!("{name}: refused, yet lent bytes changed"));
        }
        Ok(left)
    }
}
