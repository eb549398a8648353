//! Whether the indentation of an outline says what the order of its lines says: a
//! child stands deeper than its parent, and as deep as the parent's other children.
//! Where all lines stand equally deep, nothing is said by it.

use super::Line;
use crate::kinds;
use crate::lines::Wrong;
use crate::preorder::places;
use crate::refusals::Mark;
use crate::types::Node;

pub fn check(text: &str, lines: &[Line], nodes: &[Node]) -> Result<(), Wrong> {
    if lines.iter().all(|line| line.blanks == lines[0].blanks) {
        return Ok(());
    }
    let (places, _) = places(nodes);
    let of_nodes: Vec<&Line> = lines.iter().filter(|line| line.node.is_some()).collect();
    let mut section = Section::default();
    for (at, line) in lines.iter().enumerate() {
        let Some(node) = line.node else {
            section = Section {
                heading: Some(at),
                root: None,
            };
            continue;
        };
        let outline = Outline { text, lines, at };
        match places[node] {
            Some(below) => {
                let [parent, first] = [below.node, below.node + 1].map(|node| of_nodes[node]);
                let roles = kinds::children(nodes[below.node].kind);
                outline.child(parent, first, roles, below.child)?;
            }
            None => outline.root(&mut section)?,
        }
    }
    Ok(())
}

/// The lines below a heading: the heading, and the first statement.
#[derive(Default)]
struct Section {
    heading: Option<usize>,
    root: Option<usize>,
}

/// An outline at one of its lines.
struct Outline<'t> {
    text: &'t str,
    lines: &'t [Line<'t>],
    at: usize,
}

impl<'t> Outline<'t> {
    fn here(&self) -> &'t Line<'t> {
        &self.lines[self.at]
    }

    /// A line that is a child, with the lines of its parent and of the parent's
    /// first child, and what the children are to it.
    fn child(
        &self,
        parent: &Line,
        first: &Line,
        roles: &[&str],
        child: usize,
    ) -> Result<(), Wrong> {
        let here = self.here();
        if here.is_under(parent) && here.blanks == first.blanks {
            return Ok(());
        }
        let (role, name) = (roles[child], parent.name());
        let owner = format!("the `{name}` in line {}", parent.number);
        if self
            .above()
            .is_some_and(|above| above.number == parent.number)
        {
            let (number, other) = (first.number, roles[0]);
            let why = format!(
                "it is the {role} of {owner}, but isn't indented as its {other} in line {number} is"
            );
            return Err(self.wrong(why, first, "indent both lines alike".to_string()));
        }
        let why = format!("{}, but is the {role} of {owner}", self.stands());
        let remedy = format!("indent it under the `{name}`, or write the {role} before it");
        Err(self.wrong(why, parent, remedy))
    }

    /// A line that is a root: the statement under a heading, the main program, or
    /// one too many, which is the product's to refuse.
    fn root(&self, section: &mut Section) -> Result<(), Wrong> {
        let here = self.here();
        let heading = section.heading.map(|heading| &self.lines[heading]);
        match (heading, section.root.map(|root| &self.lines[root])) {
            (_, None) => {
                section.root = Some(self.at);
                Ok(())
            }
            (Some(heading), Some(_)) if heading.words[0] != "main" => {
                *section = Section {
                    heading: None,
                    root: Some(self.at),
                };
                if !here.is_under(heading) {
                    return Ok(());
                }
                let why = format!("{}, but is the main program", self.stands());
                let remedy = "put the statements of a procedure into a sequence, and write 'main' \
                    over the main program";
                Err(self.wrong(why, heading, remedy.to_string()))
            }
            (_, Some(root)) if here.blanks == root.blanks => Ok(()),
            (_, Some(root)) => {
                let why = format!("{}, but the program is whole before it", self.stands());
                let remedy = "leave it out, or put it where it belongs";
                Err(self.wrong(why, root, remedy.to_string()))
            }
        }
    }

    /// The line that the indentation puts this one under.
    fn above(&self) -> Option<&'t Line<'t>> {
        let mut before = self.lines[..self.at].iter().rev();
        before.find(|line| self.here().is_under(line))
    }

    fn stands(&self) -> String {
        match self.above() {
            Some(line) => format!("it stands under `{}`", line.name()),
            None => "it stands under no other line".to_string(),
        }
    }

    /// What is wrong here, with another line that it has to do with.
    fn wrong(&self, why: String, other: &Line, remedy: String) -> Wrong {
        let here = self.here();
        let mark = |line: &Line| Mark::new(self.text.as_bytes(), line.place.whole, "");
        let mixed = here.blanks.contains('\t') || other.blanks.contains('\t');
        Wrong {
            marks: vec![mark(here), mark(other)],
            remedy: Some(match mixed {
                true => format!("{remedy}; with tabs, indent by tabs alone"),
                false => remedy,
            }),
            ..Wrong::new(here.number, why)
        }
    }
}

impl Line<'_> {
    /// Whether this line is indented under another, by the same blanks and more.
    fn is_under(&self, other: &Line) -> bool {
        self.blanks.len() > other.blanks.len() && self.blanks.starts_with(other.blanks)
    }

    fn name(&self) -> String {
        match self.node {
            Some(_) => self.words[0].to_string(),
            None => self.words.join(" "),
        }
    }
}
