//! What people type by habit and what is written otherwise here.

use super::rules;

const BYTE_ORDER_MARK: &[u8] = "\u{feff}".as_bytes();

/// What is told of a word outside the language, with what stands behind it.
pub fn outside(word: &[u8], rest: &[u8]) -> (&'static str, String) {
    let (rule, remedy) = match word {
        BYTE_ORDER_MARK => (
            rules::BYTE_ORDER_MARK,
            "save it as plain text, without the mark",
        ),
        b"/" if rest.starts_with(b"/") || rest.starts_with(b"*") => {
            (rules::COMMENT, "write # and no end")
        }
        b"*" | b"/" | b"%" => (
            rules::NO_OPERATOR,
            "count in a loop, or work the number out and write it",
        ),
        b":" => (
            rules::NO_SIGN,
            "write := to assign, = to compare",
        ),
        b"\"" | b"'" => (
            rules::NO_TEXTS,
            "write what is for the reader after #",
        ),
        [b'0'..=b'9', ..] => (
            rules::NO_NUMBER,
            "write it in decimal without leading zeros, at most 65535, or after 0x, at most 0xffff",
        ),
        _ if word.iter().any(u8::is_ascii_uppercase) => return capitals(word),
        _ => (
            rules::NO_WORD,
            "use words in small letters, numbers and := @ ; || { } ( ) [ ] , ! + - = != < > <= >= & |",
        ),
    };
    (rule, remedy.to_string())
}

fn capitals(word: &[u8]) -> (&'static str, String) {
    let small = String::from_utf8_lossy(word).to_ascii_lowercase();
    (rules::CAPITALS, format!("write {small}"))
}

/// Whether an expression may end with a word.
fn ends_operand(word: &[u8]) -> bool {
    let last = word.last().copied().unwrap_or_default();
    last.is_ascii_alphanumeric() || matches!(last, b'_' | b')' | b']')
}

/// What is told of a sign behind the names of a declaration.
pub fn behind_names(keyword: &[u8], sign: &[u8]) -> Option<(&'static str, &'static str)> {
    Some(match (keyword, sign) {
        (b"word" | b"array", b"[") => (
            rules::LENGTH,
            "leave the brackets out; an index stands where an element is used",
        ),
        (b"word" | b"array", b"=" | b":=") => (
            rules::FIRST_VALUE,
            "assign it in the program, or give it with the run, as left=5",
        ),
        (b"constant", b"+" | b"-" | b"&" | b"|") => {
            (rules::ONE_NUMBER, "work it out, and write the number")
        }
        _ => return None,
    })
}

/// What is told where the text can't go on with the middle one of three words.
pub fn wrong_order([before, word, after]: [&[u8]; 3]) -> Option<(&'static str, &'static str)> {
    Some(match (before, word) {
        (b"=", b"=") => (rules::EQUAL, "write ="),
        (b"&", b"&") | (_, b"and") => (rules::AND, "write &"),
        (_, b"or") => (rules::OR, "write |"),
        (before, b"||") if ends_operand(before) => {
            (rules::OR, "write |; || is for statements side by side")
        }
        (_, b"elseif" | b"elsif" | b"elif") => (
            rules::ELSE_IF,
            "write else if .. then .. end end, with an end for each if",
        ),
        (b"<", b">") => (rules::NOT_EQUAL, "write !="),
        (_, b"+" | b"-") if after == word || after == b"=" => {
            (rules::COUNTING, "write x := x + 1, or x := x - 1")
        }
        (_, b"constant" | b"word" | b"array" | b"procedure") => {
            (rules::TOO_LATE, "move it to the beginning of the text")
        }
        (_, b":=") => (
            rules::NO_EXPRESSION,
            "write = to compare, and := behind a word at the beginning of a statement",
        ),
        _ => return None,
    })
}
