//! The page's text with its open places, `{{title}}` and the like, filled.

/// Fills each place once, from left to right, so that nothing inside a filled text is taken for a place.
pub fn filled(template: &str, texts: &[(&str, String)]) -> String {
    let room: usize = texts.iter().map(|(_, text)| text.len()).sum();
    let mut page = String::with_capacity(template.len() + room);
    let mut rest = template;
    while let Some((front, place)) = next_place(rest) {
        page.push_str(front);
        let text = texts.iter().find(|(name, _)| *name == place);
        page.push_str(&text.expect("the template names only texts that are there").1);
        rest = &rest[front.len() + OPEN.len() + place.len() + CLOSE.len()..];
    }
    page.push_str(rest);
    page
}

const OPEN: &str = "{{";
const CLOSE: &str = "}}";

/// What stands before the next place, and the place's name.
fn next_place(text: &str) -> Option<(&str, &str)> {
    let (front, behind) = text.split_once(OPEN)?;
    let (name, _) = behind.split_once(CLOSE)?;
    Some((front, name))
}

/// Text that may stand in an element or in a quoted attribute.
pub fn escaped(text: &str) -> String {
    let mut written = String::with_capacity(text.len());
    for letter in text.chars() {
        match letter {
            '&' => written.push_str("&amp;"),
            '<' => written.push_str("&lt;"),
            '>' => written.push_str("&gt;"),
            '"' => written.push_str("&quot;"),
            '\'' => written.push_str("&#39;"),
            // A page may not have this one at all.
            '\0' => written.push('\u{fffd}'),
            _ => written.push(letter),
        }
    }
    written
}
