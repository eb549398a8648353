//! Wires in scopes that lie in each other as statements do, each wire with a name
//! that no other wire of its scope has, in the letters that dumps allow.

use super::Wire;

#[derive(Clone, Debug, Default, PartialEq, Eq)]
pub struct Scope {
    pub name: String,
    /// The number of each wire, and its name.
    pub wires: Vec<(usize, String)>,
    pub inner: Vec<Scope>,
}

/// All wires, in a scope of this name.
pub fn scopes(name: &str, wires: &[Wire]) -> Scope {
    let mut whole = Scope {
        name: name.to_string(),
        ..Scope::default()
    };
    for (number, wire) in wires.iter().enumerate() {
        let mut scope = &mut whole;
        for name in &wire.scope {
            scope = scope.inner(&lettered(name));
        }
        scope.put(number, &lettered(&wire.name));
    }
    whole
}

impl Scope {
    fn inner(&mut self, name: &str) -> &mut Scope {
        let found = self.inner.iter().position(|scope| scope.name == name);
        let at = found.unwrap_or_else(|| {
            self.inner.push(Scope {
                name: name.to_string(),
                ..Scope::default()
            });
            self.inner.len() - 1
        });
        &mut self.inner[at]
    }

    fn put(&mut self, number: usize, name: &str) {
        let taken = |name: &str| self.wires.iter().any(|(_, own)| own == name);
        let mut own = name.to_string();
        let mut count = 2;
        while taken(&own) {
            own = format!("{name}_{count}");
            count += 1;
        }
        self.wires.push((number, own));
    }

    /// The full name of each wire, by its number.
    pub fn full(&self) -> Vec<String> {
        let mut names = Vec::new();
        self.put_full("", &mut names);
        names.sort();
        names.into_iter().map(|(_, name)| name).collect()
    }

    fn put_full(&self, around: &str, names: &mut Vec<(usize, String)>) {
        let own = format!("{around}{}.", self.name);
        let wires = self.wires.iter();
        names.extend(wires.map(|(number, name)| (*number, format!("{own}{name}"))));
        for inner in &self.inner {
            inner.put_full(&own, names);
        }
    }
}

/// A name in letters, digits and `_`: brackets and points have a meaning of their own
/// in dumps and viewers, so an element is called `a2_5`.
fn lettered(name: &str) -> String {
    name.replace(['[', '.'], "_").replace(']', "")
}
