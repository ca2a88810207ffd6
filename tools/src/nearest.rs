//! The known word that was most likely meant, for a message that says 'did you mean'.

/// The closest word, if it has few enough slips. The first by name where two are as close, so that the answer is always the same.
pub fn nearest<'a>(given: &str, known: impl Iterator<Item = &'a str>) -> Option<&'a str> {
    let most = most_slips(given);
    // No word so much longer or shorter can be close, and a long one need not be compared.
    let near = known.filter(|word| word.len().abs_diff(given.len()) <= most);
    let measured = near.map(|word| (slips(given, word), word));
    let (_, word) = measured.filter(|(slips, _)| *slips <= most).min()?;
    Some(word)
}

/// How many slips a word may have and still be guessed.
fn most_slips(word: &str) -> usize {
    match word.len() {
        0..=2 => 0,
        3..=5 => 1,
        _ => 2,
    }
}

/// The letters to change, add or leave out to get from one word to the other; capitals do not count.
fn slips(word: &str, other: &str) -> usize {
    let mut row: Vec<usize> = (0..=other.len()).collect();
    for (line, letter) in word.bytes().enumerate() {
        let mut before = row[0];
        row[0] = line + 1;
        for (column, beside) in other.bytes().enumerate() {
            let change = before + usize::from(!letter.eq_ignore_ascii_case(&beside));
            before = row[column + 1];
            row[column + 1] = change.min(before + 1).min(row[column] + 1);
        }
    }
    row[other.len()]
}

#[cfg(test)]
mod tests {
    use super::nearest;

    #[test]
    fn close_words_are_found() {
        let known = || ["--limit", "--title", "--last", "run"].into_iter();
        assert_eq!(nearest("--limt", known()), Some("--limit"));
        assert_eq!(nearest("--LAST", known()), Some("--last"));
        assert_eq!(nearest("--lats", known()), Some("--last"));
        assert_eq!(nearest("rum", known()), Some("run"));
        assert_eq!(nearest("turn", known()), None);
        assert_eq!(nearest("--colour", known()), None);
        assert_eq!(nearest("r", known()), None);
        assert_eq!(nearest(&"n".repeat(100_000), known()), None);
    }

    #[test]
    fn the_first_of_two_that_are_as_close() {
        assert_eq!(nearest("roam", ["room", "foam"].into_iter()), Some("foam"));
    }
}
