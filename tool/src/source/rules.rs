//! What is told of a text that can't be read, in one table, so that every rule can be
//! shown to be met. `{}` stands for a name or a number.

macro_rules! rules {
    ($($name:ident: $words:expr,)*) => {
        $(pub const $name: &str = $words;)*
        pub const ALL: &[&str] = &[$($words,)*];
    };
}

rules! {
    // Words.
    BYTE_ORDER_MARK: "the text begins with a byte order mark",
    COMMENT: "comments begin with #",
    NO_OPERATOR: "a hub adds and subtracts, and neither multiplies nor divides",
    NO_SIGN: "this is no sign of the language",
    NO_TEXTS: "a hub has numbers and no texts",
    NO_NUMBER: "this is no number, or too big a one",
    CAPITALS: "texts have no capital letters, names neither",
    NO_WORD: "this is no word of the language",
    // Declarations.
    NO_NAME: "'{}' is no name",
    WIRE: "'{}' is the name of a wire",
    NUMBERED: "'{}' is kept for words and arrays by their numbers",
    TWICE: "'{}' is declared twice",
    SIXTEEN_WORDS: "a hub has sixteen words",
    FOUR_ARRAYS: "a hub has four arrays",
    USED_BEFORE: "'{}' is {}, which was used before",
    TOO_LATE: "declarations stand before the program",
    LENGTH: "every array has 64 words, and no length is declared",
    FIRST_VALUE: "no first value is declared",
    ONE_NUMBER: "a constant is declared as one number",
    // Names.
    NOT_THERE: "there is no {}",
    HAS_A_NAME: "{} is called '{}' in this text",
    UNKNOWN: "no {} is called '{}'",
    NO_STATEMENT: "no statement begins with '{}'",
    NOT_KNOWN_BEFORE: "'{}' is no number that is known before the run",
    NO_VALUE: "'{}' is a procedure, and has no value",
    NO_ARRAY: "'{}' is a word, and no array",
    AN_ARRAY: "'{}' is an array",
    A_CONSTANT: "'{}' is a constant, and stays {}",
    A_PROCEDURE: "'{}' is a procedure",
    // Numbers.
    BELOW: "a word holds no number below -32768",
    DELAY: "a delay is at most 255",
    MORE: "the least delay here is {}, and {} more are above 255",
    // The order of words.
    TOO_EARLY: "the text ends too early",
    NO_WAY_ON: "the text can't go on like this",
    PROCEDURE_BELONGS: "the name of a procedure belongs here",
    EQUAL: "'equal' is one sign",
    AND: "'and' is one sign",
    OR: "'or' is one sign",
    ELSE_IF: "there is no word for 'else if'",
    NO_ARGUMENTS: "a procedure is called by its name alone",
    NOT_EQUAL: "'not equal' is another sign",
    COUNTING: "there is no sign for counting up or down",
    NO_EXPRESSION: "an assignment is no expression",
    ASSIGNMENT: "an assignment has another sign",
    TOO_DEEP: "brackets and statements stand too deep in each other",
}

/// A rule with what it is about.
pub fn told(rule: &str, about: &[&str]) -> String {
    let mut parts = rule.split("{}");
    let mut text = parts.next().unwrap_or_default().to_string();
    for (part, name) in parts.zip(about) {
        text += name;
        text += part;
    }
    text
}
