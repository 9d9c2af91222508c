//! Lines, words and numbers.

/// Whether a character divides words.
pub fn is_blank(character: char) -> bool {
    matches!(character, ' ' | '\t' | '\r')
}

/// The lines with words that are no comments, with their numbers from 1.
pub fn lines(text: &str) -> impl Iterator<Item = (usize, &str)> {
    let lines = text
        .split('\n')
        .enumerate()
        .map(|(index, line)| (index + 1, line));
    lines.filter(|(_, line)| {
        let start = line.trim_start_matches(is_blank);
        !start.is_empty() && !start.starts_with('#')
    })
}

pub fn words(line: &str) -> Vec<&str> {
    line.split(is_blank)
        .filter(|word| !word.is_empty())
        .collect()
}

/// A decimal number below 2^64: digits and nothing else.
pub fn number(word: &str) -> Option<u64> {
    let digits = !word.is_empty() && word.bytes().all(|byte| byte.is_ascii_digit());
    if digits {
        word.parse().ok()
    } else {
        None
    }
}

#[cfg(test)]
mod tests {
    use super::*;

    #[test]
    fn numbers_are_digits() {
        assert_eq!(number("18446744073709551615"), Some(u64::MAX));
        assert_eq!(number("18446744073709551616"), None);
        assert_eq!(number("007"), Some(7));
        for word in ["", "+1", "-1", "1.0", "0x1", "1_0", "٣"] {
            assert_eq!(number(word), None);
        }
    }

    #[test]
    fn lines_are_counted_and_passed_over() {
        let text = "a\n\n \t\r\n # c\n\tb # c\r\n";
        let found: Vec<_> = lines(text).collect();
        assert_eq!(found, [(1, "a"), (5, "\tb # c\r")]);
        assert_eq!(words(found[1].1), ["b", "#", "c"]);
    }
}
