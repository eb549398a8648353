//! A reader of value change dumps, by the format's own description (IEEE 1364):
//! enough of it for what the tool and GTKWave's converters write.

use std::collections::BTreeMap;

/// For each wire, by its full name, the instants at which it changes and the
/// values that it then has.
pub type Changes = BTreeMap<String, Vec<(u64, u64)>>;

/// Reads a dump; with the last instant that is named in it.
pub fn read(text: &str) -> (Changes, u64) {
    let mut reader = Reader::default();
    let mut words = text.split_whitespace();
    while let Some(word) = words.next() {
        match word {
            "$scope" => reader.scope.push(until_end(&mut words)[1].to_string()),
            "$upscope" => drop((until_end(&mut words), reader.scope.pop())),
            "$var" => reader.declare(&until_end(&mut words)),
            "$dumpvars" | "$end" => {}
            word if word.starts_with('$') => drop(until_end(&mut words)),
            word => reader.event(word, &mut words),
        }
    }
    assert!(reader.scope.is_empty(), "every scope is left");
    (reader.changes, reader.now)
}

fn until_end<'t>(words: &mut impl Iterator<Item = &'t str>) -> Vec<&'t str> {
    words.take_while(|word| *word != "$end").collect()
}

#[derive(Default)]
struct Reader {
    scope: Vec<String>,
    /// The names that share a code.
    names: BTreeMap<String, Vec<String>>,
    changes: Changes,
    now: u64,
}

impl Reader {
    /// The words of a `$var`: its type, width, code, and name.
    fn declare(&mut self, words: &[&str]) {
        let [_, width, code, name, ..] = words else {
            panic!("a $var of {words:?}");
        };
        assert!(
            ["1", "16", "32"].contains(width),
            "a wire, a word or a number"
        );
        let name = name.split('[').next().expect("a name");
        let name = [self.scope.join("."), name.to_string()].join(".");
        assert!(
            self.changes.insert(name.clone(), Vec::new()).is_none(),
            "{name} is one"
        );
        self.names.entry(code.to_string()).or_default().push(name);
    }

    /// An instant, or a change of a wire or word.
    fn event<'t>(&mut self, word: &'t str, words: &mut impl Iterator<Item = &'t str>) {
        if let Some(instant) = word.strip_prefix('#') {
            let instant = instant.parse().expect("an instant");
            assert!(instant >= self.now, "instants come in order");
            self.now = instant;
            return;
        }
        let (value, code) = match word.strip_prefix('b') {
            Some(digits) => (digits, words.next().expect("a code")),
            None => word.split_at(1),
        };
        let value = u64::from_str_radix(value, 2).expect("a value");
        let now = self.now;
        for name in &self.names[code] {
            let changes = self.changes.get_mut(name).expect("a declared wire");
            changes.push((now, value));
        }
    }
}

/// The values that changes give, from one instant up to another.
pub fn values(changes: &[(u64, u64)], from: u64, to: u64) -> Vec<u32> {
    let at = |instant: u64| {
        let last = changes.iter().rev().find(|(when, _)| *when <= instant);
        last.expect("a first value").1 as u32
    };
    (from..=to).map(at).collect()
}
