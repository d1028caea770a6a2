//! The help text, and the part that `help` prints.

pub const HELP: &str = include_str!("help.txt");

/// What lines may say.
pub fn lines() -> &'static str {
    let after = HELP.split_once("LINES\n").map_or(HELP, |(_, after)| after);
    let part = after
        .split_once("\nANSWERS")
        .map_or(after, |(part, _)| part);
    part.trim_end()
}

#[cfg(test)]
mod tests {
    #[test]
    fn the_part_is_that_on_lines() {
        assert!(super::lines().starts_with("    add NUMBER"));
        assert!(!super::lines().contains("ANSWERS"));
        for word in [
            "remove", "leg", "tour", "corner", "sites", "touring", "save", "quit",
        ] {
            assert!(super::lines().contains(word), "{word}");
        }
    }
}
