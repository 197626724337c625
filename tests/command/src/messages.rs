//! The messages in the source of `run-case`, found by the functions that tell them.

/// The functions that tell a message, and how many words stand between the name and the text.
const TELLING: [(&str, usize); 3] = [("fail", 1), ("move", 0), ("note", 0)];

/// A message: the text between its variables.
#[derive(Debug, PartialEq)]
pub struct Message {
    pub line: usize,
    parts: Vec<String>,
}

impl Message {
    /// Whether a line that was told is this message.
    pub fn is_told_by(&self, line: &str) -> bool {
        let Some(rest) = line.trim_end().strip_prefix("run-case: ") else { return false };
        let [first, middle @ .., last] = self.parts.as_slice() else {
            return rest == self.parts[0];
        };
        let Some(mut rest) = rest.strip_prefix(first.as_str()) else { return false };
        for part in middle {
            let Some(at) = rest.find(part.as_str()) else { return false };
            rest = &rest[at + part.len()..];
        }
        rest.ends_with(last.as_str())
    }

    /// The text, with dots for what the variables hold.
    pub fn text(&self) -> String {
        self.parts.join("..")
    }
}

/// Reads the messages, or says which one it cannot read.
pub fn messages(source: &str) -> Result<Vec<Message>, String> {
    let mut messages = Vec::new();
    for (index, text) in source.lines().enumerate() {
        let line = index + 1;
        if text.trim_start().starts_with('#') {
            continue;
        }
        for (name, between) in TELLING {
            for words in calls(text, name) {
                let words = words.splitn(between + 1, ' ').last().unwrap_or_default();
                let parts = fixed_parts(words).ok_or_else(|| {
                    format!("line {line}: the text after {name} is not one string")
                })?;
                // Those that only hand a text on have none of their own.
                if parts.iter().any(|part| !part.is_empty()) {
                    messages.push(Message { line, parts });
                }
            }
        }
    }
    Ok(messages)
}

/// What stands behind each call of a function in a line.
fn calls<'a>(line: &'a str, name: &'a str) -> impl Iterator<Item = &'a str> + 'a {
    line.match_indices(name).filter_map(move |(at, _)| {
        let begins = line[..at].is_empty() || line[..at].ends_with([' ', ';', '(', '{']);
        line[at + name.len()..].strip_prefix(' ').filter(|_| begins)
    })
}

/// The text of a string in the shell's quotes, split at its variables.
fn fixed_parts(words: &str) -> Option<Vec<String>> {
    if let Some(text) = words.strip_prefix('\'') {
        return Some(vec![text.split_once('\'')?.0.to_string()]);
    }
    let mut rest = words.strip_prefix('"')?;
    let mut parts = vec![String::new()];
    loop {
        let next = rest.chars().next()?;
        match next {
            '"' => return Some(parts),
            '$' => {
                rest = &rest[variable_len(rest)..];
                parts.push(String::new());
            }
            _ => {
                parts.last_mut()?.push(next);
                rest = &rest[next.len_utf8()..];
            }
        }
    }
}

/// How long the variable is that a text begins with: `$name`, `$#`, `${..}` or `$((..))`.
fn variable_len(text: &str) -> usize {
    let body = &text[1..];
    let closing = |open: char, close: char| {
        let mut depth = 0;
        let end = body.find(|one: char| {
            depth += i32::from(one == open) - i32::from(one == close);
            depth == 0
        });
        end.map_or(text.len(), |end| end + 2)
    };
    match body.chars().next() {
        Some('{') => closing('{', '}'),
        Some('(') => closing('(', ')'),
        Some(one) if one.is_ascii_alphabetic() => {
            let is_name = |one: char| one.is_ascii_alphanumeric() || one == '_';
            1 + body.find(|one| !is_name(one)).unwrap_or(body.len())
        }
        _ => 2,
    }
}

#[cfg(test)]
mod tests {
    use super::*;

    fn only(source: &str) -> Message {
        let mut messages = messages(source).expect("a message that can be read");
        assert_eq!(messages.len(), 1, "{source}");
        messages.remove(0)
    }

    #[test]
    fn variables_are_left_out() {
        let source =
            "[ -e x ] || fail 66 \"$input of ${#all[@]}${a:+, ${b}}: $((c - (d))) s, $# \"";
        assert_eq!(only(source).text(), ".. of ....: .. s, .. ");
        assert_eq!(only("    note 'cost: $5'").text(), "cost: $5");
        assert_eq!(messages("note \"$2\"\n# note 'no'\nmove() { # TEXT\n"), Ok(vec![]));
        assert!(messages("fail 69 $text").is_err());
    }

    #[test]
    fn a_message_is_told_by_its_line() {
        let message = only("note \"proved $last in $took s\"");
        assert!(message.is_told_by("run-case: proved low in 7 s"));
        assert!(message.is_told_by("run-case: proved low in 7 s    "));
        assert!(!message.is_told_by("run-case: proved low"));
        assert!(!message.is_told_by("proved low in 7 s"));
        assert!(!only("note 'all'").is_told_by("run-case: all of it"));
    }
}
