//! The case program under test: stored cases, random texts that are good or damaged, and what the
//! second program prints for them.

pub mod damage;
pub mod large;
pub mod lengthen;
pub mod lines;
pub mod list;
pub mod process;
pub mod random_cases;
pub mod stored;
pub mod tally;
pub mod wordsizes;

// The campaigns and the random lists of tests/compare. That package itself cannot be a dependency: it
// links the interpreter's archive.
#[path = "../../compare/src/campaign.rs"]
pub mod campaign;
#[path = "../../compare/src/inputs.rs"]
pub mod inputs;
#[path = "../../compare/src/lists.rs"]
pub mod lists;
#[path = "../../compare/src/random.rs"]
pub mod random;
