//! Every export is declared alike wherever it stands: in Rattle, in the rows of this
//! crate, in C and in Python; and the sizes have the same values. The page on the
//! library tells each, and the example in C and Python uses each.

use std::collections::BTreeMap;
use std::fs;
use std::path::{Path, PathBuf};
use values::{layout, Cell};

/// The types of what each export is given, as Rattle writes them.
type Exports = BTreeMap<String, Vec<String>>;

fn top() -> PathBuf {
    Path::new(env!("CARGO_MANIFEST_DIR")).join("..")
}

fn text(file: &str) -> String {
    let path = top().join(file);
    fs::read_to_string(&path).unwrap_or_else(|error| panic!("{}: {error}", path.display()))
}

/// The declarations in a text that begin like this, each a name and what stands in its
/// brackets.
fn declarations<'a>(text: &'a str, begin: &'a str) -> impl Iterator<Item = (String, &'a str)> {
    text.split(begin).skip(1).map(|rest| {
        let (name, rest) = rest.split_once('(').expect("a bracket");
        let (given, _) = rest.split_once(')').expect("a bracket");
        (format!("hub_{name}"), given)
    })
}

/// The parts between commas.
fn parts(given: &str) -> impl Iterator<Item = &str> {
    given
        .split(',')
        .map(str::trim)
        .filter(|part| !part.is_empty())
}

/// The types after the colons.
fn typed(given: &str) -> Vec<String> {
    let types = parts(given).map(|part| part.split_once(": ").expect("a type").1);
    types.map(str::to_string).collect()
}

/// In a row a slice that need not be given has no flag of its own.
fn of_row(given: &str) -> Vec<String> {
    let flagged = |kind: String| match kind.strip_prefix('?') {
        Some(slice) => vec!["bool".to_string(), format!("&{slice}")],
        None => vec![kind],
    };
    typed(given).into_iter().flat_map(flagged).collect()
}

/// In C a list is a pointer, and its number of elements stands behind it.
fn of_c(given: &str) -> Vec<String> {
    let mut parts = parts(given);
    let mut types = Vec::new();
    while let Some(part) = parts.next() {
        let (kind, _) = part.rsplit_once([' ', '*']).expect("a name");
        let list = match kind.trim_end() {
            "bool" => Err("bool"),
            "size_t" => Err("usize"),
            "uint8_t" if !part.contains('*') => Err("u8"),
            "uint16_t" => Err("u16"),
            "uint32_t" => Err("u32"),
            "const uint8_t" => Ok("&[u8]"),
            "const uint32_t" => Ok("&[u32]"),
            "uint8_t" | "struct hub_reply" => Ok("&mut [u8]"),
            "const struct hub_cell" => Ok("&[Cell]"),
            "struct hub_cell" => Ok("&mut [Cell]"),
            other => panic!("no type of an export: {other}"),
        };
        if list.is_ok() {
            let length = parts.next().expect("a list has a length");
            assert!(length.starts_with("size_t "), "{part}, {length}");
        }
        types.push(list.unwrap_or_else(|number| number).to_string());
    }
    types
}

/// The source files of a crate.
fn sources(name: &str) -> Vec<String> {
    let folder = top().join("crates").join(name).join("src");
    let files = fs::read_dir(folder).expect("the crate");
    let files = files.map(|file| fs::read_to_string(file.expect("a file").path()));
    files.map(|file| file.expect("a text")).collect()
}

/// The functions that crate exports_c has for other languages.
fn in_rattle() -> Exports {
    let files = sources("exports_c");
    let all = files
        .iter()
        .flat_map(|file| declarations(file, "pub extern \"C\" fn hub_"));
    all.map(|(name, given)| (name, typed(given))).collect()
}

/// The contract of each function whose declaration begins like this, line by line.
fn contracts(name: &str, begin: &str) -> BTreeMap<String, Vec<String>> {
    let mut found = BTreeMap::new();
    for file in sources(name) {
        for rest in file.split(begin).skip(1) {
            let (name, _) = rest.split_once('(').expect("a bracket");
            let (head, _) = rest.split_once("\n{\n").expect("a body");
            let clauses = head
                .lines()
                .map(str::trim)
                .skip_while(|line| !line.starts_with("requires") && !line.starts_with("ensures"));
            found.insert(name.to_string(), clauses.map(str::to_string).collect());
        }
    }
    found
}

#[test]
fn an_export_promises_what_the_function_of_the_library_does() {
    let expected = contracts("exports", "pub fn hub_");
    let found = contracts("exports_c", "pub extern \"C\" fn hub_");
    assert_eq!(found, expected);
    assert!(found.values().all(|clauses| !clauses.is_empty()));
}

fn of(file: &str, begin: &str, types: fn(&str) -> Vec<String>) -> Exports {
    let text = text(file);
    let all = declarations(&text, begin);
    all.map(|(name, given)| (name, types(given))).collect()
}

fn assert_same(found: &Exports, file: &str) {
    let expected = in_rattle();
    for (name, types) in &expected {
        assert_eq!(found.get(name), Some(types), "{name} in {file}");
    }
    for name in found.keys() {
        assert!(expected.contains_key(name), "{name} in {file} is no export");
    }
}

#[test]
fn rust_declares_every_export() {
    let file = "bindings/src/exports.rs";
    assert_same(&of(file, "\n    hub_", of_row), file);
}

#[test]
fn c_declares_every_export() {
    let file = "bindings/c/hub.h";
    assert_same(&of(file, "\nbool hub_", of_c), file);
}

#[test]
fn python_declares_every_export() {
    let file = "bindings/python/hub.py";
    assert_same(&of(file, "\nhub_", of_row), file);
}

#[test]
fn the_page_tells_every_export() {
    let page = text("docs/LIBRARY.md");
    for name in in_rattle().keys() {
        let row = page
            .lines()
            .find(|line| line.starts_with('|') && line.contains(&format!("`{name}`")));
        assert!(row.is_some(), "{name} has no row in docs/LIBRARY.md");
    }
}

#[test]
fn the_example_uses_every_export() {
    let lines = text("bindings/example.txt");
    for name in in_rattle().keys() {
        let told = lines
            .lines()
            .any(|line| line.starts_with(&format!("{name}: ")));
        assert!(told, "{name} isn't called in the example");
    }
}

/// The names of the sizes in C, behind HUB_, and in Python.
const SIZES: [(&str, usize); 21] = [
    ("TEXT", layout::TEXT),
    ("NODE", layout::NODE),
    ("PROGRAM", layout::PROGRAM),
    ("PROCEDURES", layout::PROCEDURES),
    ("TABLE", layout::TABLE),
    ("WORDS", layout::WORDS),
    ("ELEMENTS", layout::ELEMENTS),
    ("PULSE", layout::PULSE as usize),
    ("INSTANT", layout::INSTANT as usize),
    ("STACK", layout::STACK),
    ("BLOCK", layout::BLOCK),
    ("BLOCK_HEADER", layout::BLOCK_HEADER),
    ("BLOCK_CELLS", layout::BLOCK_CELLS),
    ("CELL", Cell::LENGTH),
    ("CELLS", layout::CELLS),
    ("IMPERATIVE_CELLS", layout::IMPERATIVE_CELLS),
    ("FUNCTIONAL_CELLS", layout::FUNCTIONAL_CELLS),
    ("STATE_HEADER", layout::STATE_HEADER),
    ("FULL_CELL", layout::FULL_CELL),
    ("COMPACT_CELL", layout::COMPACT_CELL),
    ("REPLY", layout::REPLY),
];

/// The number that the line with this beginning has.
fn number(text: &str, begin: &str) -> Option<usize> {
    let rest = text.lines().find_map(|line| line.strip_prefix(begin))?;
    rest.split_whitespace().next()?.parse().ok()
}

#[test]
fn sizes_are_the_same() {
    let (c, python) = (text("bindings/c/hub.h"), text("bindings/python/hub.py"));
    for (name, size) in SIZES {
        assert_eq!(
            number(&c, &format!("#define HUB_{name} ")),
            Some(size),
            "{name} in C"
        );
        assert_eq!(
            number(&python, &format!("{name} = ")),
            Some(size),
            "{name} in Python"
        );
    }
}

/// The sizes that code in Rattle goes by, where they have the same meaning.
#[test]
fn sizes_are_those_of_the_model() {
    let model = text("crates/model/src/sizes.rt");
    for (name, size) in [
        ("BLOCK", layout::BLOCK),
        ("BLOCK_HEADER", layout::BLOCK_HEADER),
        ("BLOCK_CELLS", layout::BLOCK_CELLS),
        ("CELL", Cell::LENGTH),
        ("MOST_CELLS", layout::CELLS),
        ("STATE_HEADER", layout::STATE_HEADER),
        ("STATE_CELL", layout::FULL_CELL),
        ("COMPACT_CELL", layout::COMPACT_CELL),
        ("ELEMENTS", layout::ELEMENTS),
        ("NODE", layout::NODE),
        ("MOST_NODES", layout::NODES),
        ("PROGRAM_MOST", layout::PROGRAM),
        ("TEXT_MOST", layout::TEXT),
        ("START_WORDS", layout::WORDS),
    ] {
        let line = format!("pub const {name}: usize = {size};");
        assert!(model.contains(&line), "{line}");
    }
}
