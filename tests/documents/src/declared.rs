//! Whether a file declares a name. A name that is only used there is no declaration of it.

pub fn declares(path: &str, text: &str, name: &str) -> bool {
    match path.rsplit('.').next() {
        Some("antt") => text.lines().any(|line| names_of_antt_line(line).contains(&name)),
        Some("rt") => declares_item(text, &["fn", "struct", "enum", "const"], name),
        Some("rs") => declares_item(text, &["fn"], name),
        _ => identifiers(text).any(|word| word == name),
    }
}

/// The names that a line of antt declares: those before the colon of a signature, a field or
/// constructors, or the name of a record or a data type.
fn names_of_antt_line(line: &str) -> Vec<&str> {
    let line = without_marks(line);
    if line.starts_with("--") {
        return Vec::new();
    }
    for kind in ["record ", "data "] {
        if let Some(rest) = line.strip_prefix(kind) {
            return rest.split_whitespace().take(1).collect();
        }
    }
    let Some((before, _)) = line.split_once(" :") else {
        return Vec::new();
    };
    if before.contains(['=', '(', 'λ']) {
        return Vec::new();
    }
    // level parameters follow the name in braces
    before.split('{').take(1).flat_map(str::split_whitespace).collect()
}

fn without_marks(line: &str) -> &str {
    let mut line = line.trim_start();
    for mark in ["unfoldable ", "abbrev ", "pub "] {
        line = line.strip_prefix(mark).unwrap_or(line).trim_start();
    }
    line
}

fn declares_item(text: &str, kinds: &[&str], name: &str) -> bool {
    text.lines().any(|line| {
        let code = line.split("//").next().unwrap_or(line);
        let words: Vec<&str> = identifiers(code).collect();
        words.windows(2).any(|pair| kinds.contains(&pair[0]) && pair[1] == name)
    })
}

fn identifiers(text: &str) -> impl Iterator<Item = &str> {
    text.split(|c: char| !c.is_alphanumeric() && c != '_').filter(|word| !word.is_empty())
}

#[cfg(test)]
mod tests {
    use super::*;

    #[test]
    fn antt_declares_by_signatures_records_and_constructors() {
        let text = "unfoldable pub valueOf : List ℕ → ℕ\n\
                    valueOf xs = other (λ (k : ℕ). k)\n\
                    abbrev lift {ℓ} : Type ℓ\n\
                    pub record Bracket (a : ℕ) : Type 0 where\n\
                    \x20 pub lo-le : a ≤ a\n\
                    data Colour : Type 0 where\n\
                    \x20 red green : Colour\n\
                    -- remark : not a name\n";
        for name in ["valueOf", "lift", "Bracket", "lo-le", "Colour", "red", "green"] {
            assert!(declares("a/B.antt", text, name), "{name}");
        }
        for name in ["other", "xs", "k", "remark", "value", "Type"] {
            assert!(!declares("a/B.antt", text, name), "{name}");
        }
    }

    #[test]
    fn rattle_declares_functions_types_and_constants() {
        let text = "pub extern \"C\" fn put(x: u8) {\n    take(x) // fn gone(\n}\nstruct Cell(u8);\nenum Found { At }\nconst TOP: u8 = 1;";
        for name in ["put", "Cell", "Found", "TOP"] {
            assert!(declares("a/lib.rt", text, name), "{name}");
        }
        for name in ["take", "gone", "pu", "At"] {
            assert!(!declares("a/lib.rt", text, name), "{name}");
        }
    }

    #[test]
    fn rust_declares_functions() {
        assert!(declares("a/b.rs", "#[test]\nfn adds() {}", "adds"));
        assert!(!declares("a/b.rs", "fn other() { adds() }", "adds"));
    }

    #[test]
    fn any_other_file_has_the_name_as_a_word() {
        assert!(declares("a/b.h", "int run_all(void);", "run_all"));
        assert!(!declares("a/b.h", "int run_all(void);", "run"));
    }
}
