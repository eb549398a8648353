//! Netlists of tests/vectors, to be run from zero start words.

use hub::store;
use hub::types::Wiring;
use hub::verilog::{module, Edges};
use second::cells::Netlist;
use second::contents::CONTENTS_LENGTH;
use second::{netfile, state};
use std::fs;
use std::path::{Path, PathBuf};
use values::Format;

/// The start words of every workload.
pub const START: [u8; CONTENTS_LENGTH] = [0; CONTENTS_LENGTH];

#[derive(Clone)]
pub struct Workload {
    pub name: String,
    /// The program that it is compiled from, where that stands beside it.
    pub program: Option<Vec<u8>>,
    pub file: Vec<u8>,
    pub netlist: Netlist,
}

impl Workload {
    /// One of the workloads that are measured.
    pub fn named(name: &str) -> Workload {
        Workload::read(&vectors("speed").join(name).with_extension("net"))
    }

    /// The netlists of a folder.
    #[cfg(test)]
    pub fn all(folder: &str) -> Vec<Workload> {
        let entries = fs::read_dir(vectors(folder)).expect("the vectors");
        let mut files: Vec<PathBuf> = entries
            .map(|entry| entry.expect("an entry").path())
            .collect();
        files.retain(|file| file.extension().is_some_and(|ending| ending == "net"));
        files.sort();
        files.iter().map(|file| Workload::read(file)).collect()
    }

    /// Reads a netlist file; the vectors are good netlists.
    fn read(path: &Path) -> Workload {
        let file = fs::read(path).unwrap_or_else(|error| panic!("{}: {error}", path.display()));
        let netlist = netfile::read(&file);
        let netlist = netlist.unwrap_or_else(|refusal| panic!("{}: {refusal:?}", path.display()));
        let name = path.file_stem().expect("a name").to_string_lossy();
        Workload {
            name: name.into_owned(),
            program: fs::read(path.with_extension("prog")).ok(),
            file,
            netlist,
        }
    }

    /// It as Verilog, from zero start words.
    pub fn verilog(&self) -> String {
        let netlist = hub::types::Netlist {
            cells: self.netlist.cells.clone(),
            finish: self.netlist.finish,
            pulse: self.netlist.pulse,
        };
        let start = [0; store::LENGTH];
        module(&netlist, Wiring::Imperative, Edges::Both, &start, &[])
    }

    /// A buffer for its state.
    pub fn state(&self, format: Format) -> Vec<u8> {
        vec![0; state::length(format, self.netlist.cells.len())]
    }
}

/// A folder of the vectors.
fn vectors(folder: &str) -> PathBuf {
    let vectors = Path::new(env!("CARGO_MANIFEST_DIR")).join("../vectors");
    vectors.join(folder)
}
