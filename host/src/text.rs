//! Words of others in our messages: bounded, and without characters that would act on a terminal or break a line.

/// Characters of a word that are quoted.
const QUOTED: usize = 60;
/// Characters of a name that are told.
const NAMED: usize = 200;

/// A word of a file or of an answer, in quotation marks.
pub fn quoted(words: &str) -> String {
    format!("\"{}\"", bounded(words, QUOTED))
}

/// The name of a file.
pub fn name(path: &std::path::Path) -> String {
    bounded(&path.to_string_lossy(), NAMED)
}

/// A sentence that another program said.
pub fn sentence(words: &str) -> String {
    bounded(words.trim(), 2 * NAMED)
}

/// Control characters, line ends, odd spaces and the like are escaped as in Rust; what is too long is cut.
fn bounded(words: &str, most: usize) -> String {
    let mut told = String::new();
    for (place, character) in words.chars().enumerate() {
        if place == most {
            told.push_str("..");
            break;
        }
        match character {
            '"' | '\'' | '\\' => told.push(character),
            _ => told.extend(character.escape_debug()),
        }
    }
    told
}

/// How many of something: "1 facet", "2 facets".
pub fn counted(count: usize, what: &str) -> String {
    let many = if count == 1 { "" } else { "s" };
    format!("{count} {what}{many}")
}

/// A point as it is told.
pub fn point(p: [f64; 3]) -> String {
    format!("({:?} {:?} {:?})", p[0], p[1], p[2])
}

#[cfg(test)]
mod tests {
    use super::*;

    #[test]
    fn nothing_raw_and_nothing_long_is_told() {
        assert_eq!(quoted("\x1b[31mred\n"), "\"\\u{1b}[31mred\\n\"");
        assert_eq!(quoted("v\u{a0}1"), "\"v\\u{a0}1\"");
        assert_eq!(quoted("\u{202e}x"), "\"\\u{202e}x\"");
        assert_eq!(quoted("café \"x\""), "\"café \"x\"\"");
        assert!(quoted(&"x".repeat(1_000_000)).len() < 70);
        assert_eq!(name(std::path::Path::new("a\nb")), "a\\nb");
    }
}
