//! Lists with many divisions, whose operands are public or have a secret byte.

use reference::opcodes::INTEGER_OPERATIONS;

use super::*;
use crate::divisions::DIVISIONS;
use crate::wordsizes::varnodes;

impl Programs {
    /// A case that keeps every rule. Its operations are few, and most of them are divisions; mostly
    /// nothing else ends the run.
    pub fn division_case(&mut self) -> Case {
        let settings = self.lists.settings();
        let lengths = self.lengths();
        let mut draft = Draft::new(settings, lengths, 1 + self.below(6));
        while !draft.is_full() {
            if self.once_in(5) {
                self.add_operation(&mut draft);
            } else {
                self.add_division(&mut draft);
            }
        }
        let case = self.finished(draft);
        self.run_from_the_first(case)
    }

    /// A case of one integer operation that is no division, with every byte secret.
    pub fn secret_operands_case(&mut self) -> Case {
        let others: Vec<Operation> =
            INTEGER_OPERATIONS.iter().copied().filter(|operation| !operation.divides()).collect();
        let draft = loop {
            let settings = self.lists.settings();
            let lengths = self.lengths();
            let mut draft = Draft::new(settings, lengths, 1);
            let operation = self.pick(&others);
            draft.entries.extend(self.lists.entry_with_room(&operation, &draft.frame, 0));
            if draft.is_full() {
                break draft;
            }
        };
        let mut case = self.finished(draft);
        let labels = case.state.labels.as_mut().expect("a labelled case");
        labels.all_mut().into_iter().for_each(|space| space.fill(SECRET));
        (case.call.start, case.call.budget) = (0, SHORT_RUN);
        case
    }

    /// Adds a division if there is room for one, or else any operation.
    fn add_division(&mut self, draft: &mut Draft) {
        let opcode = self.pick(&DIVISIONS);
        let operation = OPERATIONS[opcode as usize - 1];
        let entry = self.lists.entry_with_room(&operation, &draft.frame, draft.index());
        let Some(entry) = entry else { return self.add_operation(draft) };
        let [_, dividend, divisor, _] = varnodes(&entry);
        for operand in [dividend, divisor] {
            self.label_operand(operand, draft);
        }
        if divisor.space != CONSTANT {
            let value = if self.once_in(4) { 0 } else { self.lists.random.operand(divisor.size) };
            draft.values.push((divisor, value));
        }
        draft.entries.push(entry);
    }

    /// Makes an operand public, and often one byte of it secret.
    fn label_operand(&mut self, operand: Varnode, draft: &mut Draft) {
        if operand.space == CONSTANT {
            return;
        }
        draft.labels.push((operand, PUBLIC));
        if self.once_in(4) {
            let offset = operand.offset + self.below(operand.size);
            draft.labels.push((Varnode { offset, size: 1, ..operand }, SECRET));
        }
    }
}
