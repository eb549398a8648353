//! Files: read whole, and written whole or not at all. '-' is standard input
//! or output.

use crate::types::Fault;
use std::fs::{self, File, Permissions};
use std::io::{self, ErrorKind, Read, Write};
use std::path::{Path, PathBuf};

pub const STANDARD: &str = "-";

/// A file's name, for a reader.
pub fn shown(name: &str) -> &str {
    match name {
        STANDARD => "standard input",
        name => name,
    }
}

/// The bytes of a file.
pub fn read(name: &str) -> Result<Vec<u8>, Fault> {
    let bytes = if name == STANDARD {
        let mut bytes = Vec::new();
        io::stdin().read_to_end(&mut bytes).map(|_| bytes)
    } else {
        fs::read(name)
    };
    bytes.map_err(|error| {
        let name = shown(name);
        let remedy = "give the name of a file that is there, or - for standard input";
        Fault::usage(format!("{name} can't be read: {error}; {remedy}"))
    })
}

/// Whether two names are those of one plain file, by whatever link.
pub fn are_same(one: &str, other: &str) -> bool {
    let file = |name: &str| {
        let path = (name != STANDARD).then(|| fs::canonicalize(name).ok());
        path.flatten().filter(|path| path.is_file())
    };
    file(one).is_some_and(|path| file(other) == Some(path))
}

/// Writes a file whole: to another file beside it first, which then takes its
/// name. What is no plain file, as a pipe, is written as it is.
pub fn write(name: &str, bytes: &[u8]) -> Result<(), Fault> {
    let written = if name == STANDARD {
        put(io::stdout(), bytes)
    } else {
        write_named(Path::new(name), bytes)
    };
    written.map_err(|error| unwritten(name, &error))
}

/// Prints what a command tells. Whoever reads may have gone, which is no fault.
pub fn print(bytes: &[u8]) -> Result<(), Fault> {
    match put(io::stdout(), bytes) {
        Err(error) if error.kind() != ErrorKind::BrokenPipe => Err(Fault::usage(format!(
            "standard output can't be written: {error}"
        ))),
        _ => Ok(()),
    }
}

fn unwritten(name: &str, error: &io::Error) -> Fault {
    let remedy = "give a name in a folder that is there and has room, or - for standard output";
    Fault::usage(format!("{name} can't be written: {error}; {remedy}"))
}

fn put(mut to: impl Write, bytes: &[u8]) -> io::Result<()> {
    to.write_all(bytes)?;
    to.flush()
}

fn write_named(name: &Path, bytes: &[u8]) -> io::Result<()> {
    match fs::metadata(name) {
        Ok(found) if found.is_file() => {
            let name = fs::canonicalize(name)?;
            replace(&name, bytes, Some(found.permissions()))
        }
        Ok(_) => put(File::options().write(true).open(name)?, bytes),
        Err(_) => replace(name, bytes, None),
    }
}

fn replace(name: &Path, bytes: &[u8], permissions: Option<Permissions>) -> io::Result<()> {
    let beside = beside(name);
    let moved = fill(&beside, bytes, permissions).and_then(|()| fs::rename(&beside, name));
    if moved.is_err() {
        let _ = fs::remove_file(&beside);
    }
    moved
}

fn fill(name: &Path, bytes: &[u8], permissions: Option<Permissions>) -> io::Result<()> {
    let mut file = File::create(name)?;
    file.write_all(bytes)?;
    if let Some(permissions) = permissions {
        file.set_permissions(permissions)?;
    }
    file.sync_all()
}

/// A name in the same folder, so that a rename moves no bytes.
fn beside(name: &Path) -> PathBuf {
    let mut last = name.file_name().unwrap_or_default().to_os_string();
    last.push(format!(".{}.part", std::process::id()));
    name.with_file_name(last)
}
