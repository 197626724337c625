//! Stored vectors: a call as text, and what it leaves as text. `vectors/README.md` says how both are written.

use std::fmt::LowerHex;
use std::iter;
use std::str::Lines;

use crate::answers::RunCall;
use crate::counts::{count_secrets, SecretCounts};
use crate::list::WORDS_PER_OPERATION;
use crate::machine::State;
use crate::memory::Spaces;
use crate::run::{run, Program};
use crate::speculative::{speculative_run, Window};
use crate::varnode::Wordsizes;
use crate::verdict::Settings;

/// A call with all that is lent to it.
#[derive(Clone, Debug)]
pub enum Vector {
    /// A labelled run, or a speculative run if it has a window.
    Run { call: RunCall, state: State, window: Option<Window> },
    /// The call that fills counts.
    CountSecrets { labels: Spaces, counts: SecretCounts },
}

impl Vector {
    /// Reads a vector, or says what is wrong with its text.
    pub fn read(text: &str) -> Result<Vector, String> {
        let mut lines = text.lines();
        match values(&mut lines, "call")?[..] {
            ["labelled-run"] => Vector::read_run(lines, false),
            ["speculative-run"] => Vector::read_run(lines, true),
            ["count-secrets"] => Vector::read_filling(lines),
            ref other => Err(format!("call: '{}' is none", other.join(" "))),
        }
    }

    fn read_run(mut lines: Lines, has_window: bool) -> Result<Vector, String> {
        let [order, address_size, unique, register, ram] = numbers(&mut lines, "settings")?;
        let wordsizes = Wordsizes { unique, register, ram };
        let settings = Settings { order, address_size, wordsizes };
        let [start] = numbers(&mut lines, "start")?;
        let [budget] = numbers(&mut lines, "budget")?;
        let budget = u32::try_from(budget).map_err(|_| "budget: over 32 bits".to_string())?;
        let operations = has_window.then(|| numbers(&mut lines, "window")).transpose()?;
        let memory = spaces(&mut lines, MEMORY)?;
        let labels = Some(spaces(&mut lines, LABELS)?);
        let counts = counts(&mut lines)?;
        let log = words(&mut lines, "log")?;
        let journal = has_window.then(|| words(&mut lines, "journal")).transpose()?;
        let window = operations.zip(journal);
        let window = window.map(|([operations], journal)| Window { operations, journal });
        let list = list(lines)?;
        let call = RunCall { program: Program { settings, list }, start, budget };
        Ok(Vector::Run { call, state: State { memory, labels, counts, log }, window })
    }

    fn read_filling(mut lines: Lines) -> Result<Vector, String> {
        let labels = spaces(&mut lines, LABELS)?;
        let counts = counts(&mut lines)?;
        match lines.next() {
            None => Ok(Vector::CountSecrets { labels, counts }),
            Some(line) => Err(format!("'{line}' is a line too many")),
        }
    }

    /// What a call left that was lent this vector, as text.
    pub fn printed(&self, report: &[u64; 5]) -> String {
        let mut lines = vec![line("report", report.iter().map(u64::to_string))];
        match self {
            Vector::Run { state: State { memory, labels, counts, log }, window, .. } => {
                lines.extend(lines_of(MEMORY, memory.all(), BYTES_ALONE));
                lines.extend(labels.iter().flat_map(label_lines));
                lines.extend(count_lines(counts));
                lines.push(line("log", in_runs(log, 1)));
                let journal = window.as_ref().map(|window| &window.journal);
                lines.extend(journal.map(|journal| line("journal", in_runs(journal, 1))));
            }
            Vector::CountSecrets { labels, counts } => {
                lines.extend(label_lines(labels));
                lines.extend(count_lines(counts));
            }
        }
        lines.concat()
    }
}

/// What the second program leaves for the text of a vector.
pub fn output(text: &str) -> Result<String, String> {
    let mut vector = Vector::read(text)?;
    let report = match &mut vector {
        Vector::Run { call: RunCall { program, start, budget }, state, window } => match window {
            Some(window) => speculative_run(program, *start, *budget, window, state, |_| ()),
            None => run(program, *start, *budget, state),
        },
        Vector::CountSecrets { labels, counts } => count_secrets(labels, counts),
    };
    Ok(vector.printed(&report.numbers()))
}

/// The names of the lines of the three spaces, of their labels and of the counts.
const MEMORY: [&str; 3] = ["unique", "register", "ram"];
const LABELS: [&str; 3] = ["unique-labels", "register-labels", "ram-labels"];
const COUNTS: [&str; 3] = ["unique-counts", "register-counts", "ram-counts"];

/// The most equal bytes that are printed one by one.
const BYTES_ALONE: usize = 32;

/// The values of the next line, which must have this name. What stands behind # is a remark.
fn values<'a>(lines: &mut Lines<'a>, name: &str) -> Result<Vec<&'a str>, String> {
    let line = lines.next().ok_or_else(|| format!("{name}: the line is missing"))?;
    let mut values = line.split('#').next().unwrap_or(line).split_whitespace();
    match values.next() {
        Some(first) if first == name => Ok(values.collect()),
        _ => Err(format!("{name}: its line is '{line}'")),
    }
}

/// So many decimal numbers.
fn numbers<const COUNT: usize>(lines: &mut Lines, name: &str) -> Result<[u64; COUNT], String> {
    let values = values(lines, name)?;
    let numbers: Result<Vec<u64>, _> = values.iter().map(|value| value.parse()).collect();
    let numbers = numbers.map_err(|error| format!("{name}: {error}"))?;
    numbers.try_into().map_err(|_| format!("{name}: not {COUNT} numbers"))
}

/// Three lines of bytes.
fn spaces(lines: &mut Lines, names: [&str; 3]) -> Result<Spaces, String> {
    let byte = |digits: &str| u8::from_str_radix(digits, 16).map_err(|error| error.to_string());
    let [unique, register, ram] = names.map(|name| runs(lines, name, byte));
    Ok(Spaces { unique: unique?, register: register?, ram: ram? })
}

/// Three lines of words.
fn counts(lines: &mut Lines) -> Result<SecretCounts, String> {
    let [unique, register, ram] = COUNTS.map(|name| words(lines, name));
    Ok(SecretCounts { unique: unique?, register: register?, ram: ram? })
}

fn words(lines: &mut Lines, name: &str) -> Result<Vec<u64>, String> {
    runs(lines, name, word)
}

fn word(digits: &str) -> Result<u64, String> {
    u64::from_str_radix(digits, 16).map_err(|error| error.to_string())
}

/// Elements, each by itself or as ELEMENT*COUNT.
fn runs<T: Copy>(
    lines: &mut Lines,
    name: &str,
    element: fn(&str) -> Result<T, String>,
) -> Result<Vec<T>, String> {
    let run = |value: &str| {
        let (digits, count) = value.split_once('*').unwrap_or((value, "1"));
        let count: usize = count.parse().map_err(|error| format!("{name}: {error}"))?;
        let element = element(digits).map_err(|error| format!("{name}: {error}"))?;
        Ok(iter::repeat_n(element, count))
    };
    let runs: Result<Vec<_>, String> = values(lines, name)?.into_iter().map(run).collect();
    Ok(runs?.into_iter().flatten().collect())
}

/// The operations, a line each, to the end of the text.
fn list(mut lines: Lines) -> Result<Vec<u64>, String> {
    const NAME: &str = "operation";
    let mut list = Vec::new();
    while lines.clone().next().is_some() {
        let words = values(&mut lines, NAME)?;
        if words.len() != WORDS_PER_OPERATION {
            return Err(format!("{NAME}: not {WORDS_PER_OPERATION} words"));
        }
        for digits in words {
            list.push(word(digits).map_err(|error| format!("{NAME}: {error}"))?);
        }
    }
    Ok(list)
}

fn line(name: &str, values: impl Iterator<Item = String>) -> String {
    let words: Vec<String> = iter::once(name.to_string()).chain(values).collect();
    words.join(" ") + "\n"
}

fn label_lines(labels: &Spaces) -> Vec<String> {
    lines_of(LABELS, labels.all(), BYTES_ALONE)
}

fn count_lines(counts: &SecretCounts) -> Vec<String> {
    lines_of(COUNTS, counts.all(), 1)
}

/// A line for each of three buffers.
fn lines_of<T>(names: [&str; 3], buffers: [&Vec<T>; 3], alone: usize) -> Vec<String>
where
    T: LowerHex + PartialEq,
{
    let lines = iter::zip(names, buffers);
    lines.map(|(name, elements)| line(name, in_runs(elements, alone))).collect()
}

/// Elements as text, each with all its digits. More equal ones than `alone` that follow each other are
/// ELEMENT*COUNT.
fn in_runs<T: LowerHex + PartialEq>(
    elements: &[T],
    alone: usize,
) -> impl Iterator<Item = String> + '_ {
    let digits = 2 * size_of::<T>();
    elements.chunk_by(|one, next| one == next).flat_map(move |run| {
        let text = format!("{:0digits$x}", run[0]);
        match run.len() {
            count if count <= alone => vec![text; count],
            count => vec![format!("{text}*{count}")],
        }
    })
}

#[cfg(test)]
mod tests {
    use super::*;
    use crate::fault;

    /// A CBRANCH to the end by the first byte of unique, and a COPY over it.
    const TEXT: &str = "call speculative-run\nsettings 0 1 1 1 1\nstart 0\nbudget 9\nwindow 1\n\
                        unique 01 02\nregister\nram 0a\n\
                        unique-labels 00 01\nregister-labels\nram-labels 01\n\
                        unique-counts 1 1\nregister-counts 5*2\nram-counts 0 ffffffffffffffff 3\n\
                        log 7777777777777777*2\njournal 6666666666666666*4 5\n\
                        operation 21110005 0 2 0 0 # CBRANCH\noperation 112101 0 9 0 0\n";
    /// 70 labels of unique, of which byte 69 is secret.
    const FILLING: &str =
        "call count-secrets\nunique-labels 00*69 01\nregister-labels\nram-labels 01*33\n\
                           unique-counts 5*4\nregister-counts 5\nram-counts 5 6\n";

    #[test]
    fn a_vector_is_read() {
        let Vector::Run { call, state, window } = Vector::read(TEXT).unwrap() else {
            panic!("a run");
        };
        let RunCall { program, start, budget } = &call;
        assert_eq!(program.list, [0x21110005, 0, 2, 0, 0, 0x112101, 0, 9, 0, 0]);
        assert_eq!((*start, *budget), (0, 9));
        assert_eq!(state.memory.ram, [10]);
        assert_eq!(state.labels.unwrap().unique, [0, 1]);
        assert_eq!(state.counts.all(), [&vec![1, 1], &vec![5, 5], &vec![0, u64::MAX, 3]]);
        assert_eq!(state.log, [0x7777_7777_7777_7777; 2]);
        let window = window.unwrap();
        assert_eq!(window.operations, 1);
        assert_eq!(window.journal[3..], [0x6666_6666_6666_6666, 5]);
    }

    #[test]
    fn what_a_vector_leaves_is_printed() {
        let buffers = "unique 01 02\nregister\nram 0a\n\
                       unique-labels 00 01\nregister-labels\nram-labels 01\n\
                       unique-counts 0000000000000001*2\nregister-counts 0000000000000005*2\n\
                       ram-counts 0000000000000000 ffffffffffffffff 0000000000000003\n\
                       log 0000000000000001 7777777777777777\n";
        let report = "report 0 2 1 1 0\n";
        let journal = "journal 0000000000000000*4 0000000000000005\n";
        assert_eq!(output(TEXT).unwrap(), [report, buffers, journal].concat());
        // As a labelled run it has no window.
        let labelled = TEXT.replace("speculative-run", "labelled-run").replace("window 1\n", "");
        let labelled = labelled.replace("journal 6666666666666666*4 5\n", "");
        assert_eq!(output(&labelled).unwrap(), [report, buffers].concat());
    }

    #[test]
    fn a_filling_leaves_its_counts() {
        let expected = "report 0 0 0 0 0\n\
                        unique-labels 00*69 01\nregister-labels\nram-labels 01*33\n\
                        unique-counts 0000000000000000 0000000000000001*2 0000000000000005\n\
                        register-counts 0000000000000000\nram-counts 0000000000000021*2\n";
        assert_eq!(output(FILLING).unwrap(), expected);
        let refused = output(&FILLING.replace("01*33", "01*3 02")).unwrap();
        assert!(refused.starts_with("report 12 0 0 0 0\n"));
        assert!(refused.contains("ram-labels 01 01 01 02\n"));
        assert!(refused.ends_with("ram-counts 0000000000000005 0000000000000006\n"));
    }

    #[test]
    fn a_refused_vector_leaves_what_it_was_lent() {
        let text = TEXT.replace("window 1", "window 65");
        let printed = output(&text).unwrap();
        assert!(printed.starts_with(&format!("report {} 0 0 0 0\n", fault::SETTING)));
        let journal = "log 7777777777777777*2\njournal 6666666666666666*4 0000000000000005\n";
        assert!(printed.ends_with(journal));
    }

    #[test]
    fn what_is_wrong_with_a_text_is_said() {
        for (there, other, complaint) in [
            ("speculative-run", "run", "call: 'run' is none"),
            ("call speculative-run\n", "", "call: its line is 'settings 0 1 1 1 1'"),
            ("speculative-run", "labelled-run", "unique: its line is 'window 1'"),
            ("settings 0", "settings", "settings: not 5 numbers"),
            ("start 0\n", "", "start: its line is 'budget 9'"),
            ("budget 9", "budget 4294967296", "budget: over 32 bits"),
            ("budget 9", "budget x", "budget: invalid digit found in string"),
            ("ram 0a", "ram 10a", "ram: number too large to fit in target type"),
            ("unique-counts 1 1\n", "", "unique-counts: its line is 'register-counts 5*2'"),
            ("5*2", "5*", "register-counts: cannot parse integer from empty string"),
            ("operation 21110005 0", "operation 21110005", "operation: not 5 words"),
            (
                "operation 21110005",
                "list 21110005",
                "operation: its line is 'list 21110005 0 2 0 0 # CBRANCH'",
            ),
        ] {
            let text = TEXT.replacen(there, other, 1);
            assert_eq!(Vector::read(&text).unwrap_err(), complaint);
        }
        assert_eq!(Vector::read("").unwrap_err(), "call: the line is missing");
        let longer = format!("{FILLING}log 5\n");
        assert_eq!(Vector::read(&longer).unwrap_err(), "'log 5' is a line too many");
    }
}
