//! A parser of JSON, for what `--json` prints.

use std::iter::Peekable;
use std::str::Chars;

/// Whether a text is one JSON value.
pub fn is_json(text: &str) -> bool {
    let mut letters = text.trim().chars().peekable();
    value(&mut letters).is_some() && letters.next().is_none()
}

type Letters<'a> = Peekable<Chars<'a>>;

fn value(letters: &mut Letters) -> Option<()> {
    match letters.peek()? {
        '{' => many(letters, ['{', '}'], |letters| {
            string(letters)?;
            letters.next_if_eq(&':')?;
            value(letters)
        }),
        '[' => many(letters, ['[', ']'], value),
        '"' => string(letters),
        '-' | '0'..='9' => number(letters),
        't' => word(letters, "true"),
        'f' => word(letters, "false"),
        _ => word(letters, "null"),
    }
}

/// Parts between brackets, with commas between them.
fn many(
    letters: &mut Letters,
    [open, close]: [char; 2],
    one: impl Fn(&mut Letters) -> Option<()>,
) -> Option<()> {
    letters.next_if_eq(&open)?;
    if letters.next_if_eq(&close).is_some() {
        return Some(());
    }
    loop {
        one(letters)?;
        if letters.next_if_eq(&',').is_none() {
            return letters.next_if_eq(&close).map(drop);
        }
    }
}

fn string(letters: &mut Letters) -> Option<()> {
    letters.next_if_eq(&'"')?;
    loop {
        match letters.next()? {
            '"' => return Some(()),
            '\\' => match letters.next()? {
                '"' | '\\' | '/' | 'b' | 'f' | 'n' | 'r' | 't' => {}
                'u' => {
                    (0..4).try_for_each(|_| letters.next()?.is_ascii_hexdigit().then_some(()))?
                }
                _ => return None,
            },
            control if control < ' ' => return None,
            _ => {}
        }
    }
}

fn number(letters: &mut Letters) -> Option<()> {
    letters.next_if_eq(&'-');
    let first = letters.next_if(char::is_ascii_digit)?;
    let mut digits = 1;
    while letters.next_if(char::is_ascii_digit).is_some() {
        digits += 1;
    }
    (first != '0' || digits == 1).then_some(())
}

fn word(letters: &mut Letters, word: &str) -> Option<()> {
    word.chars()
        .try_for_each(|letter| letters.next_if_eq(&letter).map(drop))
}

#[test]
fn the_parser_knows_json() {
    for good in [
        "{}",
        "[1,-2,0]",
        r#"{"a":"\"\\\u001f\n","b":[true,false,null,{}]}"#,
    ] {
        assert!(is_json(good), "{good}");
    }
    for bad in [
        "", "{", "[1,]", "01", "{\"a\"}", "\"\n\"", "\"\\x\"", "tru", "1 2", "{,}",
    ] {
        assert!(!is_json(bad), "{bad}");
    }
}
