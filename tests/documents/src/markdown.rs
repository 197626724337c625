//! The little of Markdown that the checks read.

const FENCE: &str = "```";

/// The lines outside fenced blocks, each with its number.
pub fn lines_outside_fences(text: &str) -> Vec<(usize, &str)> {
    let mut fenced = false;
    let mut lines = Vec::new();
    for (at, line) in text.lines().enumerate() {
        if line.trim_start().starts_with(FENCE) {
            fenced = !fenced;
        } else if !fenced {
            lines.push((at + 1, line));
        }
    }
    lines
}

/// The texts of the fenced blocks, with a newline after each line.
pub fn fenced_blocks(text: &str) -> Vec<String> {
    let mut blocks = Vec::new();
    let mut open: Option<String> = None;
    for line in text.lines() {
        if line.trim_start().starts_with(FENCE) {
            match open.take() {
                Some(block) => blocks.push(block),
                None => open = Some(String::new()),
            }
        } else if let Some(block) = &mut open {
            block.push_str(line);
            block.push('\n');
        }
    }
    blocks
}

/// Whether the last fenced block ends: what follows one that does not would be left out.
pub fn fences_are_closed(text: &str) -> bool {
    let fences = text.lines().filter(|line| line.trim_start().starts_with(FENCE));
    fences.count() % 2 == 0
}

/// A line taken apart at its backticks.
#[derive(Debug, Default, PartialEq)]
pub struct Line<'a> {
    /// What stands in backticks.
    pub code: Vec<&'a str>,
    /// The rest.
    pub words: String,
    /// Whether a backtick opens what none closes.
    pub unclosed: bool,
}

pub fn take_apart(line: &str) -> Line<'_> {
    let mut parts = Line::default();
    let mut rest = line;
    while let Some(open) = rest.find('`') {
        parts.words.push_str(&rest[..open]);
        let inside = &rest[open + 1..];
        let Some(close) = inside.find('`') else {
            parts.words.push_str(inside);
            parts.unclosed = true;
            return parts;
        };
        parts.code.push(&inside[..close]);
        rest = &inside[close + 1..];
    }
    parts.words.push_str(rest);
    parts
}

/// The targets of the links `[..](target)` in the words of a line.
pub fn link_targets(words: &str) -> Vec<&str> {
    let after_open = words.split("](").skip(1);
    after_open.filter_map(|rest| rest.split(')').next()?.split_whitespace().next()).collect()
}

/// The cells of a table's row, or nothing where the line is no such row. `\|` is no border.
pub fn cells(line: &str) -> Option<Vec<String>> {
    let inner = line.trim().strip_prefix('|')?.strip_suffix('|')?;
    let bars = inner.replace("\\|", "\0");
    Some(bars.split('|').map(|cell| cell.replace('\0', "|").trim().to_string()).collect())
}

#[cfg(test)]
mod tests {
    use super::*;

    #[test]
    fn fenced_lines_are_left_out() {
        assert_eq!(lines_outside_fences("a\n```sh\nb\n```\nc"), [(1, "a"), (5, "c")]);
        assert!(fences_are_closed("a\n```sh\nb\n```\nc"));
        assert!(!fences_are_closed("a\n```sh\nb"));
    }

    #[test]
    fn fenced_blocks_are_found() {
        assert_eq!(fenced_blocks("a\n```sh\nb\nc\n```\nd\n```\n```\n"), ["b\nc\n", ""]);
    }

    #[test]
    fn a_line_is_taken_apart_at_its_backticks() {
        let parts = take_apart("see `a/b` and `c`.");
        assert_eq!(parts.code, ["a/b", "c"]);
        assert_eq!(parts.words, "see  and .");
        assert!(!parts.unclosed);
        let open = take_apart("an `open [a](b)");
        assert!(open.unclosed);
        assert_eq!(link_targets(&open.words), ["b"]);
    }

    #[test]
    fn links_are_found_in_words_alone() {
        let parts = take_apart("[`a`](docs/a.md) ![b](b.png \"title\") `[c](d)`");
        assert_eq!(link_targets(&parts.words), ["docs/a.md", "b.png"]);
    }

    #[test]
    fn a_row_is_split_at_its_borders() {
        assert_eq!(cells("| a | b \\| c | |").unwrap(), ["a", "b | c", ""]);
        assert_eq!(cells("a | b"), None);
    }
}
