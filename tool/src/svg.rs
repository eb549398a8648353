//! What the tool's pictures share: strokes that tell control from words, in
//! colour and in grey, and texts as the format wants them.

/// A monospaced font, so that a text's width is known.
pub const FONT: &str = "font-family=\"DejaVu Sans Mono, monospace\" font-size=\"12\"";
/// A control wire is thin and dark.
pub const CONTROL: &str = "stroke=\"#123a7a\" stroke-width=\"1.4\"";
pub const CONTROL_COLOUR: &str = "#123a7a";
/// A word wire is wide and lighter.
pub const WORD: &str = "stroke=\"#d9822b\" stroke-width=\"2.8\"";
pub const WORD_COLOUR: &str = "#d9822b";

/// A text with the format's own signs replaced.
pub fn escaped(text: &str) -> String {
    let sign = |letter: char| match letter {
        '&' => "&amp;".to_string(),
        '<' => "&lt;".to_string(),
        '>' => "&gt;".to_string(),
        '"' => "&quot;".to_string(),
        other => other.to_string(),
    };
    text.chars().map(sign).collect()
}
