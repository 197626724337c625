//! Campaigns: tests of many random inputs, of which any one can be repeated alone.
//!
//! A campaign has a seed, and its inputs are numbered from 0. What an input is depends on the seed and
//! on its number alone. A test that fails prints the command that repeats its input; it is for the top
//! of the repository, and `UNDRELVOA_CASE`, if it was set, has to be set again.
//!
//! Three variables of the environment change every campaign that runs:
//!
//! - `UNDRELVOA_TIMES=10` draws ten times as many inputs;
//! - `UNDRELVOA_SEED=0x1234` draws the inputs of another seed;
//! - `UNDRELVOA_INPUT=17` draws the input of this number and no other. What takes a whole campaign,
//!   such as how often each ending should come, is not asked for then.
//!
//! A value that is no such number is a failure. This is a longer comparison:
//!
//! ```text
//! UNDRELVOA_TIMES=10 cargo test --release --offline --manifest-path tests/compare/Cargo.toml
//! ```

use std::env;
use std::ffi::OsString;
use std::fmt;
use std::panic::Location;
use std::path::Path;
use std::thread;

use crate::random::Random;

const TIMES: &str = "UNDRELVOA_TIMES";
const SEED: &str = "UNDRELVOA_SEED";
const INPUT: &str = "UNDRELVOA_INPUT";

/// Keeps the number of a campaign's inputs within 64 bits.
const MOST_TIMES: u64 = u32::MAX as u64;

/// The inputs of a test, each as its number and a generator of its own. Where the test fails while it
/// has a campaign, the command that repeats the failure is printed.
pub struct Campaign {
    seed: u64,
    times: u64,
    /// The only input to draw, unless the campaign is whole.
    only: Option<u64>,
    count: u64,
    drawn: u64,
    /// The input that the test is at.
    current: Option<u64>,
    /// The file of the test.
    file: &'static str,
}

impl Campaign {
    /// A campaign of `count` inputs, if the environment does not say otherwise. The test makes it in
    /// its own file and on its own thread, which give the names for the command.
    #[track_caller]
    pub fn new(seed: u64, count: u64) -> Campaign {
        match Variables::read(|name| env::var_os(name)) {
            Ok(variables) => Campaign::with(&variables, seed, count),
            Err(complaint) => panic!("{complaint}"),
        }
    }

    #[track_caller]
    fn with(variables: &Variables, seed: u64, count: u64) -> Campaign {
        Campaign {
            seed: variables.seed.unwrap_or(seed),
            times: variables.times,
            only: variables.input,
            count: if variables.input.is_some() { 1 } else { count * variables.times },
            drawn: 0,
            current: None,
            file: Location::caller().file(),
        }
    }

    /// Whether all inputs are drawn, so that a test can ask how often something came.
    pub fn is_whole(&self) -> bool {
        self.only.is_none()
    }

    /// How many times the usual number of inputs a whole campaign has.
    pub fn times(&self) -> u64 {
        self.times
    }

    /// How many inputs were drawn until now.
    pub fn drawn(&self) -> u64 {
        self.drawn
    }

    /// Says how to repeat the input that the test is at, or the campaign if it is at none.
    fn advice(&self) -> String {
        let (what, variable) = match self.current.or(self.only) {
            Some(number) => ("this input alone", format!("{INPUT}={number}")),
            None => ("this campaign", format!("{TIMES}={}", self.times)),
        };
        let thread = thread::current();
        format!(
            "to repeat {what}: {SEED}={:#x} {variable} cargo test --release --offline \
             --manifest-path {} --test {} {} -- --exact --nocapture",
            self.seed,
            manifest(),
            Path::new(self.file).file_stem().unwrap_or_default().display(),
            thread.name().unwrap_or_default()
        )
    }
}

/// The package's manifest, from the top of the repository.
fn manifest() -> String {
    let package = Path::new(env!("CARGO_MANIFEST_DIR"));
    format!("tests/{}/Cargo.toml", package.file_name().unwrap_or_default().display())
}

impl Iterator for Campaign {
    type Item = (u64, Random);

    fn next(&mut self) -> Option<(u64, Random)> {
        self.current = (self.drawn < self.count).then(|| self.only.unwrap_or(self.drawn));
        let number = self.current?;
        self.drawn += 1;
        Some((number, Random::of_input(self.seed, number)))
    }
}

impl Drop for Campaign {
    fn drop(&mut self) {
        if thread::panicking() {
            // In one write, and from the start of a line: another test may fail at the same time.
            let line = format!("\n{}\n", self.advice());
            eprint!("{line}");
        }
    }
}

impl fmt::Display for Campaign {
    fn fmt(&self, formatter: &mut fmt::Formatter) -> fmt::Result {
        write!(formatter, "seed {:#x}", self.seed)?;
        self.only.map_or(Ok(()), |number| write!(formatter, ", input {number} alone"))
    }
}

/// What the environment says of campaigns.
#[derive(Debug, PartialEq, Eq)]
struct Variables {
    times: u64,
    seed: Option<u64>,
    input: Option<u64>,
}

impl Variables {
    /// Reads the variables by `value_of`. A value that is not as it should be is an error, so that a
    /// slip never passes for a long campaign.
    fn read(value_of: impl Fn(&str) -> Option<OsString>) -> Result<Variables, String> {
        let number = |name, least, most| {
            let Some(value) = value_of(name) else { return Ok(None) };
            let value = value.to_string_lossy();
            match whole_number(&value).filter(|number| (least..=most).contains(number)) {
                Some(number) => Ok(Some(number)),
                None => Err(format!(
                    "{name} is '{value}', and should be a whole number from {least} to {most}, \
                     in decimal digits or in hexadecimal ones after 0x"
                )),
            }
        };
        Ok(Variables {
            times: number(TIMES, 1, MOST_TIMES)?.unwrap_or(1),
            seed: number(SEED, 0, u64::MAX)?,
            input: number(INPUT, 0, u64::MAX)?,
        })
    }
}

/// A number of 64 bits in decimal digits, or in hexadecimal ones after 0x.
fn whole_number(text: &str) -> Option<u64> {
    let (digits, radix) = match text.strip_prefix("0x") {
        Some(digits) => (digits, 16),
        None => (text, 10),
    };
    // The library takes a sign too.
    let unsigned = !digits.starts_with('+');
    u64::from_str_radix(digits, radix).ok().filter(|_| unsigned)
}

#[cfg(test)]
mod tests {
    use super::*;

    const USUAL: Variables = Variables { times: 1, seed: None, input: None };

    /// Each input's number with the first words of its generator.
    fn inputs(campaign: &mut Campaign) -> Vec<(u64, [u64; 4])> {
        campaign.map(|(number, mut random)| (number, [(); 4].map(|()| random.word()))).collect()
    }

    fn alone(number: u64) -> Variables {
        Variables { input: Some(number), ..USUAL }
    }

    /// What is read where one variable has a value.
    fn read(name: &str, value: &str) -> Result<Variables, String> {
        Variables::read(|asked| (asked == name).then(|| value.into()))
    }

    #[test]
    fn an_input_alone_is_as_among_the_others() {
        let all = inputs(&mut Campaign::with(&USUAL, 7, 100));
        assert_eq!(all.len(), 100);
        for (index, input) in all.iter().enumerate() {
            let number = index as u64;
            assert_eq!(input.0, number);
            assert_eq!(inputs(&mut Campaign::with(&alone(number), 7, 100)), [*input]);
        }
    }

    #[test]
    fn what_an_input_draws_does_not_change_the_next() {
        let mut campaign = Campaign::with(&USUAL, 7, 2);
        let (_, mut first) = campaign.next().expect("an input");
        for _ in 0..1_000 {
            first.word();
        }
        assert_eq!(inputs(&mut campaign), inputs(&mut Campaign::with(&alone(1), 7, 2)));
    }

    #[test]
    fn inputs_of_other_numbers_and_seeds_are_others() {
        let mut words: Vec<[u64; 4]> = Vec::new();
        for seed in [0, 1, 2, u64::MAX] {
            words.extend(
                inputs(&mut Campaign::with(&USUAL, seed, 1_000)).iter().map(|input| input.1),
            );
        }
        let all = words.len();
        words.sort();
        words.dedup();
        assert_eq!((all, words.len()), (4_000, 4_000));
    }

    #[test]
    fn the_seed_of_the_environment_comes_first() {
        let other = Variables { seed: Some(8), ..USUAL };
        let [found, expected] = [(other, 7), (USUAL, 8)]
            .map(|(variables, seed)| inputs(&mut Campaign::with(&variables, seed, 5)));
        assert_eq!(found, expected);
    }

    #[test]
    fn a_longer_campaign_begins_with_the_same_inputs() {
        let mut longer = Campaign::with(&Variables { times: 3, ..USUAL }, 7, 5);
        let found = inputs(&mut longer);
        assert_eq!((found.len(), longer.drawn(), longer.times()), (15, 15, 3));
        assert_eq!(found[..5], inputs(&mut Campaign::with(&USUAL, 7, 5)));
    }

    #[test]
    fn only_a_campaign_of_one_input_is_not_whole() {
        assert!(Campaign::with(&USUAL, 7, 1).is_whole());
        // A longer campaign has inputs with higher numbers.
        let mut campaign = Campaign::with(&alone(u64::MAX), 7, 5);
        assert!(!campaign.is_whole());
        assert_eq!(inputs(&mut campaign)[0].0, u64::MAX);
        assert_eq!(campaign.drawn(), 1);
        assert_eq!(campaign.to_string(), "seed 0x7, input 18446744073709551615 alone");
    }

    #[test]
    fn advice_is_about_the_input_at_hand_and_else_about_the_campaign() {
        let mut campaign = Campaign::with(&Variables { times: 3, ..USUAL }, 0x5eed, 4);
        let about = |campaign: &Campaign| {
            let advice = campaign.advice();
            advice.split(" cargo").next().expect("a first part").to_string()
        };
        assert_eq!(
            about(&campaign),
            "to repeat this campaign: UNDRELVOA_SEED=0x5eed UNDRELVOA_TIMES=3"
        );
        campaign.nth(10);
        let input_10 = "to repeat this input alone: UNDRELVOA_SEED=0x5eed UNDRELVOA_INPUT=10";
        assert_eq!(about(&campaign), input_10);
        assert_eq!(campaign.by_ref().count(), 1);
        assert_eq!(
            about(&campaign),
            "to repeat this campaign: UNDRELVOA_SEED=0x5eed UNDRELVOA_TIMES=3"
        );
        assert_eq!(about(&Campaign::with(&alone(10), 0x5eed, 4)), input_10);
    }

    #[test]
    fn advice_names_manifest_binary_and_test() {
        let advice = Campaign::with(&USUAL, 7, 5).advice();
        let (_, command) = advice.split_once(" cargo").expect("a command");
        let manifest = manifest();
        assert_eq!(
            command,
            format!(
                " test --release --offline --manifest-path {manifest} --test campaign \
                 campaign::tests::advice_names_manifest_binary_and_test -- --exact --nocapture"
            )
        );
        let repository = Path::new(env!("CARGO_MANIFEST_DIR")).join("../..");
        assert!(repository.join(manifest).is_file());
    }

    #[test]
    fn variables_are_read() {
        assert_eq!(Variables::read(|_| None), Ok(USUAL));
        assert_eq!(read(TIMES, "1"), Ok(USUAL));
        assert_eq!(read(TIMES, "4294967295"), Ok(Variables { times: MOST_TIMES, ..USUAL }));
        let seed = |seed| Ok(Variables { seed: Some(seed), ..USUAL });
        assert_eq!(read(SEED, "0x5eed0041"), seed(0x5eed_0041));
        assert_eq!(read(SEED, "0xFFFFFFFFffffffff"), seed(u64::MAX));
        assert_eq!(read(SEED, "12"), seed(12));
        assert_eq!(read(INPUT, "0"), Ok(alone(0)));
        assert_eq!(read(INPUT, "6600000"), Ok(alone(6_600_000)));
    }

    #[test]
    fn other_values_are_refused_with_what_was_expected() {
        for name in [TIMES, SEED, INPUT] {
            for value in ["", " ", "x", "-1", "+1", "1.5", "1 ", "1e3", "0x", "0x+1", "0xg", "5eed"]
            {
                assert!(read(name, value).is_err(), "{name} took '{value}'");
            }
            assert!(read(name, "18446744073709551616").is_err());
            assert!(read(name, "0x10000000000000000").is_err());
        }
        assert_eq!(
            read(TIMES, "0"),
            Err("UNDRELVOA_TIMES is '0', and should be a whole number from 1 to 4294967295, \
                 in decimal digits or in hexadecimal ones after 0x"
                .to_string())
        );
        assert!(read(TIMES, "4294967296").is_err());
    }
}
