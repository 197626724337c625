//! How often things came, so that a test can ask for enough of each.

use std::collections::BTreeMap;
use std::fmt::{self, Debug};

/// How often each event came.
pub struct Counts<Event> {
    counts: BTreeMap<Event, u64>,
}

impl<Event> Default for Counts<Event> {
    fn default() -> Counts<Event> {
        Counts { counts: BTreeMap::new() }
    }
}

impl<Event: Copy + Debug + Ord> Counts<Event> {
    pub fn add(&mut self, event: Event) {
        *self.counts.entry(event).or_insert(0) += 1;
    }

    /// Adds each event of which it is said that it came.
    pub fn add_those_that_came(&mut self, events: impl IntoIterator<Item = (bool, Event)>) {
        for (_, event) in events.into_iter().filter(|(came, _)| *came) {
            self.add(event);
        }
    }

    /// How often an event came.
    pub fn of(&self, event: Event) -> u64 {
        self.counts.get(&event).copied().unwrap_or(0)
    }

    /// The events that came.
    pub fn counted(&self) -> impl Iterator<Item = Event> + '_ {
        self.counts.keys().copied()
    }

    /// Fails if an event came less often than it should.
    pub fn assert_quota(&self, event: Event, quota: u64) {
        let count = self.of(event);
        assert!(count >= quota, "{event:?} came {count} times, and not {quota} times or more");
    }
}

impl<Event: Debug> fmt::Display for Counts<Event> {
    fn fmt(&self, formatter: &mut fmt::Formatter) -> fmt::Result {
        let counts: Vec<String> =
            self.counts.iter().map(|(event, count)| format!("{event:?}: {count}")).collect();
        formatter.write_str(&counts.join(", "))
    }
}
