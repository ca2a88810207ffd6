//! Text of the user as a message repeats it: in quotes, never whole if it is long.

/// The most characters that a message repeats.
pub const MOST_REPEATED: usize = 40;

/// The text, cut where it is too long. Control characters would reach a terminal, so they are replaced.
pub fn cut(text: &str) -> String {
    let plain =
        |letter: char| if letter.is_control() { char::REPLACEMENT_CHARACTER } else { letter };
    let mut letters = text.chars().map(plain);
    let mut shown: String = letters.by_ref().take(MOST_REPEATED).collect();
    if letters.next().is_some() {
        shown.push('…');
    }
    shown
}

/// The same between quotes.
pub fn quoted(text: &str) -> String {
    format!("'{}'", cut(text))
}
