//! Colours: they change nothing but how a text looks, and stand where a reader looks.

use hub::colour::painted;

/// A text without its colours.
fn plain(text: &str) -> String {
    let mut plain = String::new();
    let mut rest = text;
    while let Some((before, after)) = rest.split_once("\x1b[") {
        plain += before;
        rest = after.split_once('m').expect("the end of a colour").1;
    }
    plain + rest
}

#[test]
fn colours_leave_the_text_as_it_is() {
    let text = "a.hub:1:14: refused 7: this delay is too small\n  1 | x0 := x1 + 3 @15\n    |              ^^^ here\n  \
        to do: write @16\nhub: no file\na.hub:2:1: warning: never\n  line   3  x0=3  failed  ended at 2\n\
        word ^ of ^\n\nno end";
    assert_eq!(plain(&painted(text)), text);
    assert_eq!(painted(text).matches("\x1b[0m").count(), 6);
}

#[test]
fn what_a_reader_looks_for_is_painted() {
    let red = |text: &str| format!("\x1b[1;31m{text}\x1b[0m");
    for (line, part) in [
        ("a.hub:1:2: refused 17: there is no x16\n", "refused 17"),
        ("    | ^^^\n", "^^^"),
        ("  12 |    ^ caption\n", "^"),
        ("hub: no file\n", "hub:"),
    ] {
        let (before, after) = line.split_once(part).expect("its part");
        // A line of the text with a bar has a number, and no caret under it.
        let expected = match line.starts_with("  12") {
            true => line.to_string(),
            false => format!("{before}{}{after}", red(part)),
        };
        assert_eq!(painted(line), expected);
    }
}
