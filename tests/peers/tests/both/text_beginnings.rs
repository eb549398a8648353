//! Refusal 18 by brute force. The language is told a second time, as sets of
//! word lists and without any reading: which short lists are texts, and which
//! begin one. The reader must agree on every list.

use peers::BOTH;
use std::collections::{BTreeMap, BTreeSet};
use values::{Given, Refusal};

const WORDS: [&str; 27] = [
    "ok", "tick", "if", "then", "else", "end", "while", "do", "repeat", "until", "x3", "7", ":=",
    "@", ";", "||", "{", "}", "(", ")", "!", "+", "-", "=", "<", "&", "|",
];

/// A list of words, by their numbers.
type List = Vec<usize>;

/// A language as far as lists of at most `most` words tell it.
#[derive(Clone, Default, PartialEq)]
struct Language {
    most: usize,
    /// The lists that are texts of it.
    whole: BTreeSet<List>,
    /// The lists that begin a text of it, each with a rest that completes it.
    begun: BTreeMap<List, List>,
}

impl Language {
    fn none(most: usize) -> Language {
        Language {
            most,
            ..Language::default()
        }
    }

    /// The empty text alone.
    fn empty(most: usize) -> Language {
        Language {
            most,
            whole: [vec![]].into(),
            begun: [(vec![], vec![])].into(),
        }
    }

    /// One word alone.
    fn word(most: usize, word: &str) -> Language {
        let list = vec![number(word)];
        Language {
            most,
            whole: [list.clone()].into(),
            begun: [(vec![], list.clone()), (list, vec![])].into(),
        }
    }

    fn or(mut self, other: &Language) -> Language {
        self.whole.extend(other.whole.iter().cloned());
        for (list, rest) in &other.begun {
            self.begun.entry(list.clone()).or_insert(rest.clone());
        }
        self
    }

    /// Texts of this one, then of the next.
    fn then(&self, next: &Language) -> Language {
        let mut joined = Language::none(self.most);
        // Any text of the next completes what completes a text of this one.
        if let Some(any) = next.begun.get(&vec![]) {
            let completed = |rest: &List| [&rest[..], any].concat();
            let begun = self.begun.iter();
            joined.begun = begun
                .map(|(list, rest)| (list.clone(), completed(rest)))
                .collect();
        }
        let mut shortest_first: Vec<_> = next.begun.iter().collect();
        shortest_first.sort_by_key(|(list, _)| list.len());
        for first in &self.whole {
            let fits = |list: &List| first.len() + list.len() <= self.most;
            for (list, rest) in shortest_first.iter().take_while(|(list, _)| fits(list)) {
                let longer = [&first[..], list].concat();
                if next.whole.contains(*list) {
                    joined.whole.insert(longer.clone());
                }
                joined.begun.insert(longer, rest.to_vec());
            }
        }
        joined
    }

    /// Any number of texts of this one.
    fn repeated(&self) -> Language {
        grown(Language::empty(self.most), |some| {
            Language::empty(self.most).or(&some.then(self))
        })
    }
}

/// The language that an equation tells, from the shortest texts upwards.
fn grown(mut language: Language, equation: impl Fn(&Language) -> Language) -> Language {
    loop {
        let next = equation(&language);
        if next == language {
            return language;
        }
        language = next;
    }
}

/// Which texts are told: those of these words, as far as `most` words go.
/// With a word that opens something there are those that complete it, so a
/// list of these words that begins a text begins one of these words.
struct Telling {
    words: &'static [&'static str],
    most: usize,
}

impl Telling {
    /// The texts written here: words, and `S` and `E` for given languages.
    /// A text with a word that isn't told of is left out.
    fn any_of(&self, texts: &[&str], statement: &Language, expression: &Language) -> Language {
        let is_told = |word| matches!(word, "S" | "E") || self.words.contains(&word);
        let told = texts.iter().filter(|text| text.split(' ').all(is_told));
        told.fold(Language::none(self.most), |all, text| {
            all.or(&self.written(text, statement, expression))
        })
    }

    fn written(&self, text: &str, statement: &Language, expression: &Language) -> Language {
        let part = |word: &str| match word {
            "S" => statement.clone(),
            "E" => expression.clone(),
            word => Language::word(self.most, word),
        };
        let parts = text.split(' ').map(part);
        parts.fold(Language::empty(self.most), |before, part| {
            before.then(&part)
        })
    }

    fn signs(&self, signs: &[&str]) -> Language {
        let none = Language::none(self.most);
        self.any_of(signs, &none, &none)
    }

    /// Operands with operators between them: no grouping is told here.
    fn expressions(&self) -> Language {
        let none = Language::none(self.most);
        grown(none.clone(), |expression| {
            let leaf = self.any_of(&["7", "x3", "( E )"], &none, expression);
            let operand = self.signs(&["!"]).repeated().then(&leaf);
            let more = self.signs(&["+", "-"]).then(&operand);
            let sum = operand.then(&more.repeated());
            let compared = sum.then(&self.signs(&["=", "<"])).then(&sum);
            let comparison = sum.or(&compared);
            let more = self.signs(&["&", "|"]).then(&comparison);
            comparison.then(&more.repeated())
        })
    }

    /// Statements with `;` and `||` between them.
    fn statements(&self) -> Language {
        let expression = self.expressions();
        grown(Language::none(self.most), |statement| {
            let one = self.any_of(&STATEMENTS, statement, &expression);
            let more = self.signs(&[";", "||"]).then(&one);
            one.then(&more.repeated())
        })
    }

    /// The lists with one word more, whichever it is.
    fn one_longer(&self, list: &[usize]) -> Vec<List> {
        let words = self.words.iter();
        words.map(|word| [list, &[number(word)]].concat()).collect()
    }
}

const STATEMENTS: [&str; 7] = [
    "ok",
    "tick 7",
    "x3 := E @ 7",
    "if E @ 7 then S else S end",
    "while E @ 7 do S end",
    "repeat S until E @ 7 end",
    "{ S }",
];

fn number(word: &str) -> usize {
    let found = WORDS.iter().position(|known| *known == word);
    found.expect("a known word")
}

/// The text of a list, and the place of each word in it.
fn typed(list: &[usize]) -> (String, Vec<usize>) {
    let (mut text, mut places) = (String::new(), vec![]);
    for &word in list {
        places.push(text.len());
        text += WORDS[word];
        text.push(' ');
    }
    (text, places)
}

/// The number of the word where the reader finds the list broken, that of all
/// words where it ends too early, or none for a whole text: its program is
/// refused, or has no room.
fn broken_at(list: &[usize]) -> Option<usize> {
    let (text, places) = typed(list);
    let refusal = (BOTH.read_text)(Given::NOTHING, text.as_bytes(), &[])
        .result
        .err();
    match refusal.expect("no room") {
        Refusal {
            number: 1..=8 | 14, ..
        } => None,
        Refusal { number: 18, place } if place == text.len() => Some(list.len()),
        Refusal { number: 18, place } => Some(
            places
                .iter()
                .position(|&word| word == place)
                .expect("a word's place"),
        ),
        refusal => panic!("{text}: {refusal}"),
    }
}

/// What the sets say of a list.
fn told(language: &Language, list: &[usize]) -> Option<usize> {
    let is_begun = |&length: &usize| language.begun.contains_key(&list[..length]);
    match (1..=list.len()).find(|length| !is_begun(length)) {
        Some(length) => Some(length - 1),
        None => (!language.whole.contains(list)).then_some(list.len()),
    }
}

fn assert_agrees(language: &Language, list: &[usize]) {
    assert_eq!(broken_at(list), told(language, list), "{}", typed(list).0);
}

/// All words with few in a list, and few words with more in a list.
const TELLINGS: [Telling; 4] = [
    Telling {
        words: &WORDS,
        most: 6,
    },
    Telling {
        words: &["x3", "7", ":=", "@", "(", ")", "!", "-", "=", "&", ";"],
        most: 8,
    },
    Telling {
        words: &["ok", ";", "||", "{", "}"],
        most: 10,
    },
    Telling {
        words: &[
            "ok", "if", "7", "@", "then", "else", "end", "while", "do", "repeat", "until", ";",
        ],
        most: 12,
    },
];

#[test]
fn every_list_of_four_words_is_told_alike() {
    let telling = Telling {
        words: &WORDS,
        most: 4,
    };
    let language = telling.statements();
    let mut lists: Vec<List> = vec![vec![]];
    for _ in 0..telling.most {
        lists = lists
            .iter()
            .flat_map(|list| telling.one_longer(list))
            .collect();
        for list in &lists {
            assert_agrees(&language, list);
        }
    }
    assert_eq!(lists.len(), 27 * 27 * 27 * 27);
}

#[test]
fn every_beginning_is_completed_and_each_word_after_it_told_alike() {
    for telling in TELLINGS {
        let language = telling.statements();
        assert!(language.begun.len() > 4_000, "{}", language.begun.len());
        for (list, rest) in &language.begun {
            let completed = [&list[..], rest].concat();
            assert_eq!(broken_at(&completed), None, "{}", typed(&completed).0);
        }
        let shorter = language
            .begun
            .keys()
            .filter(|list| list.len() < telling.most);
        for longer in shorter.flat_map(|list| telling.one_longer(list)) {
            assert_agrees(&language, &longer);
        }
    }
}
