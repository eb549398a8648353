//! Earley's reading of words by a grammar: refusal 18.
//!
//! After each word stands the list of all rules that may be under way there,
//! so that a word which advances none of them is one where no continuation
//! fits. The grammar decides nothing in advance and is used as it stands.
//! As no rule is empty, a rule never ends where it began; as a text has one
//! reading, no rule comes to the same point in two ways.

use crate::grammar::{Grammar, Part, Rule, Symbol, WHOLE};

/// A rule under way, of which some symbols are read.
#[derive(Clone, Copy)]
struct Item {
    rule: usize,
    read: usize,
    /// The number of words before its first.
    from: usize,
    /// What its last step was; none where nothing is read.
    last: Option<Step>,
}

/// A step of an item: where it stood before, and what it read.
#[derive(Clone, Copy)]
struct Step {
    before: Link,
    read: Read,
}

#[derive(Clone, Copy)]
enum Read {
    /// The word of this number.
    Word(usize),
    /// The part that this item, at its end, is.
    Part(Link),
}

/// An item by its place.
#[derive(Clone, Copy)]
pub struct Link {
    point: usize,
    item: usize,
}

/// The items after some number of words.
struct Point {
    items: Vec<Item>,
    /// The items that go on with a part.
    waiting: Vec<(Part, usize)>,
}

/// A text that the grammar allows.
pub struct Reading {
    grammar: &'static Grammar,
    points: Vec<Point>,
    whole: Link,
}

/// What a rule has read, in text order: words by their numbers.
pub struct Phrase {
    pub rule: &'static Rule,
    pub words: Vec<usize>,
    pub parts: Vec<Link>,
}

impl Reading {
    /// The reading of words with these signs, or the number of the first word where
    /// no continuation fits; where words are missing, how many there are.
    pub fn of(grammar: &'static Grammar, signs: &[&'static str]) -> Result<Reading, usize> {
        let mut points = vec![Point::new(beginnings(grammar, WHOLE, 0).collect())];
        for (number, sign) in signs.iter().enumerate() {
            close(grammar, &mut points);
            let items = after_word(grammar, &points[number], number, sign);
            if items.is_empty() {
                return Err(number);
            }
            points.push(Point::new(items));
        }
        close(grammar, &mut points);
        let whole = whole(grammar, &points).ok_or(signs.len())?;
        Ok(Reading {
            grammar,
            points,
            whole,
        })
    }

    /// The phrase that the whole text is.
    pub fn whole(&self) -> Link {
        self.whole
    }

    pub fn rule(&self, link: Link) -> &'static Rule {
        self.item(link).rule(self.grammar)
    }

    /// What the item at its end has read, found from the end to its beginning.
    pub fn phrase(&self, link: Link) -> Phrase {
        let (mut words, mut parts) = (vec![], vec![]);
        let mut item = self.item(link);
        while let Some(step) = item.last {
            match step.read {
                Read::Word(number) => words.push(number),
                Read::Part(part) => parts.push(part),
            }
            item = self.item(step.before);
        }
        words.reverse();
        parts.reverse();
        Phrase {
            rule: item.rule(self.grammar),
            words,
            parts,
        }
    }

    fn item(&self, link: Link) -> Item {
        self.points[link.point].items[link.item]
    }
}

impl Item {
    fn begin(rule: usize, from: usize) -> Item {
        Item {
            rule,
            read: 0,
            from,
            last: None,
        }
    }

    fn rule(self, grammar: &Grammar) -> &Rule {
        &grammar.rules[self.rule]
    }

    /// The symbol to be read next; none at its end.
    fn next(self, grammar: &Grammar) -> Option<Symbol> {
        self.rule(grammar).right.get(self.read).copied()
    }

    fn step(self, before: Link, read: Read) -> Item {
        Item {
            read: self.read + 1,
            last: Some(Step { before, read }),
            ..self
        }
    }
}

impl Point {
    fn new(items: Vec<Item>) -> Point {
        Point {
            items,
            waiting: vec![],
        }
    }

    /// Notes that an item goes on with a part; the first to do so brings the
    /// beginnings of that part's rules.
    fn wait(&mut self, grammar: &Grammar, item: usize, part: Part, point: usize) {
        if self.waiting.iter().all(|&(other, _)| other != part) {
            self.items.extend(beginnings(grammar, part, point));
        }
        self.waiting.push((part, item));
    }
}

fn beginnings(grammar: &Grammar, part: Part, point: usize) -> impl Iterator<Item = Item> + use<'_> {
    let rules = grammar.rules.iter().enumerate();
    rules
        .filter(move |(_, rule)| rule.left == part)
        .map(move |(number, _)| Item::begin(number, point))
}

/// Adds to the last point all that its items bring along.
fn close(grammar: &Grammar, points: &mut [Point]) {
    let (last, earlier) = points.split_last_mut().expect("there is a first point");
    let point = earlier.len();
    let mut number = 0;
    while let Some(&item) = last.items.get(number) {
        match item.next(grammar) {
            Some(Symbol::Part(part)) => last.wait(grammar, number, part, point),
            Some(Symbol::Word(_)) => {}
            None => {
                let ended = Link {
                    point,
                    item: number,
                };
                last.items.extend(after_part(grammar, earlier, item, ended));
            }
        }
        number += 1;
    }
}

/// The items that waited for a part, now that one has ended.
fn after_part<'p>(
    grammar: &Grammar,
    earlier: &'p [Point],
    ended: Item,
    link: Link,
) -> impl Iterator<Item = Item> + use<'p> {
    let (point, part) = (&earlier[ended.from], ended.rule(grammar).left);
    let waiting = point
        .waiting
        .iter()
        .filter(move |(other, _)| *other == part);
    waiting.map(move |&(_, item)| {
        let before = Link {
            point: ended.from,
            item,
        };
        point.items[item].step(before, Read::Part(link))
    })
}

/// The items of a point that go on with this word, each a step on.
fn after_word(grammar: &Grammar, point: &Point, number: usize, sign: &'static str) -> Vec<Item> {
    let items = point.items.iter().enumerate();
    items
        .filter(|(_, item)| item.next(grammar) == Some(Symbol::Word(sign)))
        .map(|(place, item)| {
            let before = Link {
                point: number,
                item: place,
            };
            item.step(before, Read::Word(number))
        })
        .collect()
}

/// The one whole text among the items of the last point, if there is one.
fn whole(grammar: &Grammar, points: &[Point]) -> Option<Link> {
    let (last, earlier) = points.split_last()?;
    let is_whole = |item: &Item| {
        let ended = item.next(grammar).is_none();
        item.from == 0 && item.rule(grammar).left == WHOLE && ended
    };
    let places = (0..last.items.len()).filter(|&item| is_whole(&last.items[item]));
    let found: Vec<usize> = places.collect();
    assert!(found.len() <= 1, "a text has one reading");
    let point = earlier.len();
    found.first().map(|&item| Link { point, item })
}
