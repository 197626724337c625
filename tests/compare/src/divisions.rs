//! What runs divide, and what they did with divisions, counted, so that a test can ask for enough of each.

use reference::answers::RunCall;
use reference::bytes::ByteOrder;
use reference::fault::{LEAK, ZERO};
use reference::memory::{is_secret, value_of, Spaces, SECRET};
use reference::opcodes::{Opcode, Operation};
use reference::run::BUDGET;
use reference::varnode::Varnode;

use crate::counts::Counts;
use crate::lists::entry_at;
use crate::runs::{interpreter_report, Case, Job};
use crate::secrets::labels;
use crate::wordsizes::varnodes;

/// The operations that divide.
pub const DIVISIONS: [Opcode; 4] =
    [Opcode::IntDiv, Opcode::IntRem, Opcode::IntSdiv, Opcode::IntSrem];

/// Which operands have a secret byte, of a division that leaks.
#[derive(Clone, Copy, Debug, PartialEq, Eq, PartialOrd, Ord)]
pub enum Secret {
    Dividend,
    Divisor,
    Both,
}

/// What can happen to divisions.
#[derive(Clone, Copy, Debug, PartialEq, Eq, PartialOrd, Ord)]
pub enum Event {
    /// One or more in a run, executed or stopped.
    Run,
    Executed {
        opcode: u8,
    },
    /// Stopped by ZERO.
    Zero {
        opcode: u8,
    },
    /// Stopped by LEAK.
    Leak {
        opcode: u8,
        secret: Secret,
    },
    /// The same with a divisor of 0.
    LeakAtZero {
        opcode: u8,
        secret: Secret,
    },
    /// Stopped by LEAK at a single secret byte of one operand, by its place among 8.
    OneByte {
        secret: Secret,
        place: usize,
    },
}

/// How often each event came.
pub type Divisions = Counts<Event>;

impl Divisions {
    /// Counts an operation executed. Gives back whether it is a division.
    pub fn count_executed(&mut self, opcode: Opcode) -> bool {
        let divides = DIVISIONS.contains(&opcode);
        self.add_those_that_came([(divides, Event::Executed { opcode: opcode as u8 })]);
        divides
    }

    /// Counts what stopped a run, by what it left behind. Gives back whether that is a division.
    pub fn count_stopped(&mut self, after: &Case, report: &[u64; 5]) -> bool {
        let [ending, index, ..] = *report;
        let is_stop = [LEAK, ZERO].contains(&ending);
        let division = is_stop.then(|| Division::at(&after.call.program.list, index as usize));
        let Some(division) = division.flatten() else { return false };
        if ending == ZERO {
            self.add(Event::Zero { opcode: division.opcode });
        } else {
            self.count_leak(&division, after);
        }
        true
    }

    fn count_leak(&mut self, division: &Division, after: &Case) {
        let opcode = division.opcode;
        // A stopped operation writes nothing, so its operands are what they were.
        let labels = labels(&after.state);
        let secret = division.secret(labels).expect("a secret byte where it leaks");
        let [_, divisor] = division.values(after);
        let is_zero = divisor == 0;
        self.add(Event::Leak { opcode, secret });
        self.add_those_that_came([(is_zero, Event::LeakAtZero { opcode, secret })]);
        let operand = match secret {
            Secret::Dividend => division.dividend,
            Secret::Divisor => division.divisor,
            Secret::Both => return,
        };
        if let ([place], 8) = (&secret_places(labels, &operand)[..], operand.size) {
            self.add(Event::OneByte { secret, place: *place });
        }
    }
}

/// The operands of the divisions that a case executes, by single steps of the interpreter, and how the
/// last of at most so many steps ended. The case keeps every rule.
pub fn divided(mut case: Case, most_steps: u64) -> (Vec<[u64; 2]>, u64) {
    let mut operands = vec![];
    for _ in 0..most_steps {
        let RunCall { program, start, .. } = &case.call;
        let is_operation = *start < program.count();
        let division = is_operation.then(|| Division::at(&program.list, *start as usize)).flatten();
        let values = division.map(|division| division.values(&case));
        let [ending, index, executed, words, _] = interpreter_report(Job::Step, &mut case);
        operands.extend(values.filter(|_| executed == 1));
        if ending != BUDGET {
            return (operands, ending);
        }
        case.call.start = index;
        case.state.log.drain(..words as usize);
    }
    (operands, BUDGET)
}

/// The places of an operand's secret bytes.
fn secret_places(labels: &Spaces, operand: &Varnode) -> Vec<usize> {
    let labels = labels.part(operand).iter().enumerate();
    labels.filter(|(_, &label)| label == SECRET).map(|(place, _)| place).collect()
}

/// A division of a well-formed list.
pub(crate) struct Division {
    pub(crate) opcode: u8,
    dividend: Varnode,
    divisor: Varnode,
}

impl Division {
    /// The division at an index, if the operation there is one.
    pub(crate) fn at(list: &[u64], index: usize) -> Option<Division> {
        let entry = entry_at(list, index);
        let operation = Operation::with_number(u64::from(entry.opcode));
        let [_, dividend, divisor, _] = varnodes(&entry);
        let division = Division { opcode: entry.opcode, dividend, divisor };
        operation.is_some_and(Operation::divides).then_some(division)
    }

    /// The values of dividend and divisor.
    fn values(&self, case: &Case) -> [u64; 2] {
        let order = ByteOrder::with_number(case.call.program.settings.order);
        let order = order.expect("a run with good settings");
        [self.dividend, self.divisor].map(|operand| value_of(order, &case.state.memory, &operand))
    }

    /// Which operands have a secret byte, if any has.
    pub(crate) fn secret(&self, labels: &Spaces) -> Option<Secret> {
        match [self.dividend, self.divisor].map(|operand| is_secret(labels, &operand)) {
            [true, true] => Some(Secret::Both),
            [true, false] => Some(Secret::Dividend),
            [false, true] => Some(Secret::Divisor),
            [false, false] => None,
        }
    }
}
