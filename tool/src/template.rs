//! Templates: how a node or a cell of each kind is written as words, once for
//! writing and for reading. A word of a template such as `x{n}` or `@{d}` is a
//! prefix and a field; every other word stands for itself.

/// A kind and its words.
pub struct Template {
    pub kind: u8,
    pub words: &'static str,
}

/// The templates of all kinds, and one that fits any, by its bytes.
pub struct Templates {
    pub kinds: &'static [Template],
    pub any: Template,
}

/// A field's letter, and what stands for it in a text.
pub type Field<'w> = (char, &'w str);

impl Templates {
    /// The words of a value of this kind, by its own template where reading
    /// them gives all of the value back.
    pub fn write(
        &self,
        kind: u8,
        value: impl Fn(char) -> String,
        whole: impl Fn(&[&str]) -> bool,
    ) -> String {
        let own = self.kinds.iter().find(|template| template.kind == kind);
        let plain = own.map(|template| put_in(template.words, &value));
        match plain {
            Some(words) if whole(&words.split(' ').collect::<Vec<_>>()) => words,
            _ => put_in(self.any.words, &value),
        }
    }

    /// The kind and the fields of words, or what to write instead.
    pub fn read<'w>(&self, given: &[&'w str]) -> Result<(u8, Vec<Field<'w>>), String> {
        self.kinds
            .iter()
            .chain([&self.any])
            .find_map(|template| Some((template.kind, matched(template.words, given)?)))
            .ok_or_else(|| self.nearest(given))
    }

    /// What to write where no template fits: those that begin alike.
    fn nearest(&self, given: &[&str]) -> String {
        let first = |template: &Template| template.words.split(' ').next();
        let alike = |template: &&Template| first(template) == given.first().copied();
        let shown = |template: &Template| {
            put_in(template.words, |letter| letter.to_uppercase().to_string())
        };
        let alike: Vec<String> = self.kinds.iter().filter(alike).map(shown).collect();
        let given = given.join(" ");
        match alike.is_empty() {
            true => format!("'{given}' is no kind"),
            false => format!("'{given}' isn't whole; write: {}", alike.join(", or: ")),
        }
    }
}

/// The words with every field put in.
fn put_in(words: &str, value: impl Fn(char) -> String) -> String {
    let put = |word: &str| match field(word) {
        Some((prefix, letter)) => format!("{prefix}{}", value(letter)),
        None => word.to_string(),
    };
    words.split(' ').map(put).collect::<Vec<_>>().join(" ")
}

fn matched<'w>(words: &str, given: &[&'w str]) -> Option<Vec<Field<'w>>> {
    let mut fields = Vec::new();
    let mut rest = given.iter();
    for word in words.split(' ') {
        let next = rest.next()?;
        match field(word) {
            Some((prefix, letter)) => fields.push((letter, next.strip_prefix(prefix)?)),
            None if word != *next => return None,
            None => {}
        }
    }
    rest.next().is_none().then_some(fields)
}

/// A word of a template that has a field: what stands before it, its letter.
fn field(word: &str) -> Option<(&str, char)> {
    let (prefix, letter) = word.strip_suffix('}')?.split_once('{')?;
    Some((prefix, letter.chars().next()?))
}

/// A field that is a number below 256.
pub fn byte(value: &str) -> Result<u8, String> {
    value
        .parse()
        .map_err(|_| format!("'{value}' is no number below 256"))
}

/// A field that is a number below 65,536.
pub fn word(value: &str) -> Result<u16, String> {
    value
        .parse()
        .map_err(|_| format!("'{value}' is no number below 65536"))
}
