//! Lists with many operations that move bytes, of which some are secret, and operations that must find what
//! was moved public.

use reference::run::observed_run;

use super::branches::constant;
use super::*;
use crate::moves::MOVES;
use crate::speculations::Speculation;
use crate::windows::varnodes_read;

impl Programs {
    /// A case that keeps every rule. Its operations are few; most of them move bytes, and the last uses what
    /// was moved.
    pub fn moving_case(&mut self) -> Case {
        let draft = self.draft_for_moves(3, 5);
        self.moving_case_of(draft)
    }

    /// The same from an empty draft of at least three operations.
    pub(super) fn moving_case_of(&mut self, mut draft: Draft) -> Case {
        self.add_move(&mut draft);
        self.add_move(&mut draft);
        while draft.index() + 1 < draft.frame.count {
            self.add_move_or_use(&mut draft);
        }
        self.add_use(&mut draft);
        let case = self.finished(draft);
        self.run_from_the_first(case)
    }

    /// A speculative run that keeps every rule, whose windows mostly have such operations.
    pub fn moving_speculation(&mut self) -> Speculation {
        let draft = self.draft_for_moves(4, 8);
        self.moving_speculation_of(draft)
    }

    /// The same from an empty draft.
    pub(super) fn moving_speculation_of(&mut self, draft: Draft) -> Speculation {
        let operations = 1 + self.below(8);
        let case = self.moving_branches_case(draft);
        let mut speculation = self.with_window(case, operations);
        self.set_limits(&mut speculation);
        speculation
    }

    /// The case of an empty draft with many branches and moves, without budget and log.
    fn moving_branches_case(&mut self, mut draft: Draft) -> Case {
        while !draft.is_full() {
            self.add_move(&mut draft);
            self.add_guarded(&mut draft, Programs::add_move_or_use);
        }
        self.finished_from_the_first(draft)
    }

    /// A case of one operation that is executed and writes, mostly from bytes of which some are secret.
    pub fn write_case(&mut self) -> Case {
        loop {
            let mut draft = self.draft(1, 1);
            if self.once_in(2) {
                self.add_move(&mut draft);
            } else {
                self.add_operation(&mut draft);
                let inputs = read_in_memory(&draft.entries[0]);
                inputs.into_iter().for_each(|input| self.mix_labels(input, &mut draft));
            }
            let mut case = self.finished(draft);
            (case.call.start, case.call.budget) = (0, 1);
            case.state.log = vec![0; 1];
            let mut writes = false;
            let RunCall { program, start, budget } = &case.call;
            observed_run(program, *start, *budget, &mut case.state.clone(), |observed| {
                writes = observed.written.is_some();
            });
            if writes {
                return case;
            }
        }
    }

    /// An empty draft. Mostly its addresses are short, so that a part of a word can be one, and each space has
    /// room for a word.
    fn draft_for_moves(&mut self, fewest: u64, more: u64) -> Draft {
        let mut settings = self.lists.settings();
        if !self.once_in(4) {
            settings.address_size = 1 + self.below(2);
        }
        let mut lengths = self.lengths();
        if !self.once_in(8) {
            let [unique, register, ram] = [(); 3].map(|()| 8 + self.below(24));
            lengths = Lengths { unique, register, ram };
        }
        Draft::new(settings, lengths, fewest + self.below(more))
    }

    fn add_move_or_use(&mut self, draft: &mut Draft) {
        match self.below(10) {
            0 => self.add_operation(draft),
            1..=3 => self.add_use(draft),
            _ => self.add_move(draft),
        }
    }

    /// Adds an operation that moves bytes, some of them secret and often some that were moved before.
    fn add_move(&mut self, draft: &mut Draft) {
        let opcode = self.pick(&MOVES);
        let operation = OPERATIONS[opcode as usize - 1];
        let entry = self.lists.entry_with_room(&operation, &draft.frame, draft.index());
        let entry = entry.and_then(|entry| self.mixed_move(opcode, entry, draft));
        self.add_or_any(entry, draft);
    }

    /// The same operation in bounds, with few bytes dropped, on bytes of which some are secret, if it can be.
    fn mixed_move(&mut self, opcode: Opcode, mut entry: Entry, draft: &mut Draft) -> Option<Entry> {
        if [Opcode::Load, Opcode::Store].contains(&opcode) {
            let pointer = self.pointer_in_bounds(&entry, draft)?;
            point(&mut entry, constant(pointer, draft.frame.address_size));
        }
        if opcode == Opcode::Load {
            let Entry { offsets: [_, space, pointer, _], .. } = entry;
            let offset = pointer * draft.wordsize(&entry);
            let size = accessed_size(&entry);
            self.mix_labels(Varnode { space, offset, size }, draft);
            return Some(entry);
        }
        if opcode == Opcode::Subpiece && !self.once_in(8) {
            entry.offsets[INPUT1] = self.below(10);
        }
        if self.once_in(2) {
            let moved = if opcode == Opcode::Store { INPUT2 } else { INPUT0 };
            let size = u64::from(entry.descriptors[moved] % 16);
            if let Some(place) = self.over_used(size, draft) {
                put(&mut entry, moved, place);
            }
        }
        let inputs = read_in_memory(&entry);
        inputs.into_iter().for_each(|input| self.mix_labels(input, draft));
        Some(entry)
    }

    /// Adds an operation that must find something public, on what an operation before it used or wrote.
    fn add_use(&mut self, draft: &mut Draft) {
        let entry = self.sink(draft).and_then(|(mut entry, place, size)| {
            put(&mut entry, place, self.over_used(size, draft)?);
            if entry.opcode == Opcode::Cbranch as u8 && !self.once_in(4) {
                self.stay(&mut entry, draft.index(), draft.frame.count);
            }
            Some(entry)
        });
        self.add_or_any(entry, draft);
    }

    /// A varnode over what one of the last operations used or wrote: a part of that, or more.
    fn over_used(&mut self, size: u64, draft: &Draft) -> Option<Varnode> {
        let used = self.used_place(draft)?;
        let step = self.below(used.size.abs_diff(size) + 1);
        let offset =
            if size <= used.size { used.offset + step } else { used.offset.saturating_sub(step) };
        let last = draft.frame.lengths.of(used.space)?.checked_sub(size)?;
        Some(Varnode { offset: offset.min(last), size, ..used })
    }

    /// Makes a place secret or public, or some bytes of it the one and some the other.
    fn mix_labels(&mut self, place: Varnode, draft: &mut Draft) {
        let style = self.below(6);
        for byte in 0..place.size {
            let is_secret = style == 0 || style > 1 && self.once_in(2);
            let byte = Varnode { offset: place.offset + byte, size: 1, ..place };
            draft.labels.push((byte, if is_secret { SECRET } else { PUBLIC }));
        }
    }
}

/// The varnodes in memory that an operation reads.
fn read_in_memory(entry: &Entry) -> Vec<Varnode> {
    varnodes_read(entry).filter(|input| input.space != CONSTANT).collect()
}
