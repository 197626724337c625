//! Lists with many branches, and ways not taken on which there is something to be seen.

use super::*;
use crate::divisions::DIVISIONS;
use crate::moves::SINKS;
use reference::varnode::{REGISTER, UNIQUE};

/// The operations that always exit.
const INDIRECT: [Opcode; 3] = [Opcode::BranchInd, Opcode::CallInd, Opcode::Return];

impl Programs {
    /// A well-formed case with many branches, without budget and log.
    pub(super) fn branching_case(&mut self) -> Case {
        let mut draft = self.draft(2, 14);
        while !draft.is_full() {
            match self.below(10) {
                0 => self.add_loop(&mut draft),
                1 => self.add_table_access(&mut draft),
                2..=6 => self.add_guarded(&mut draft, Programs::add_guarded_operation),
                7 | 8 => self.add_branch(&mut draft),
                _ => self.add_operation(&mut draft),
            }
        }
        self.finished_from_the_first(draft)
    }

    /// A well-formed case with a CBRANCH and more operations behind it than a window has, most of which
    /// write, without budget and log.
    pub(super) fn straight_case(&mut self) -> Case {
        let mut draft = self.draft(66, 6);
        let is_taken = !self.once_in(5);
        let condition = self.condition(is_taken, &mut draft);
        draft.entries.push(cbranch(relative(draft.frame.count, &draft), condition));
        while !draft.is_full() {
            match self.below(3) {
                0 => self.add_access(&mut draft),
                _ => self.add_overwrite(&mut draft),
            }
        }
        self.finished_from_the_first(draft)
    }

    /// An empty draft for a list of `fewest` operations, or some more.
    pub(super) fn draft(&mut self, fewest: u64, more: u64) -> Draft {
        let settings = self.lists.settings();
        let lengths = self.lengths();
        Draft::new(settings, lengths, fewest + self.below(more))
    }

    /// The case of a draft, which mostly starts at the first operation.
    pub(super) fn finished_from_the_first(&mut self, draft: Draft) -> Case {
        let mut case = self.finished(draft);
        if !self.once_in(16) {
            case.call.start = 0;
        }
        case
    }

    /// Adds a CBRANCH and operations behind it, each added by `add`, that its right way mostly leaves out.
    pub(super) fn add_guarded(&mut self, draft: &mut Draft, add: fn(&mut Programs, &mut Draft)) {
        let operations = 1 + self.below(5);
        let is_taken = !self.once_in(5);
        let condition = self.condition(is_taken, draft);
        let past_them = draft.index() + 1 + operations;
        let target = if self.once_in(8) { draft.frame.count } else { past_them };
        self.add_cbranch(target, condition, draft);
        for _ in 0..operations {
            add(self, draft);
        }
    }

    /// Adds an operation for a way not taken.
    fn add_guarded_operation(&mut self, draft: &mut Draft) {
        match self.below(16) {
            0..=3 => self.add_access(draft),
            4..=7 => self.add_overwrite(draft),
            8..=10 => self.add_sink(draft),
            11 => self.add_way_out(draft),
            12 => self.add_branch(draft),
            _ => self.add_operation(draft),
        }
    }

    /// Adds a CBRANCH to anywhere.
    fn add_branch(&mut self, draft: &mut Draft) {
        let (index, count) = (draft.index(), draft.frame.count);
        let is_taken = self.once_in(2);
        let condition = self.condition(is_taken, draft);
        let target = match self.below(10) {
            0 | 1 => index + 1,
            2 => count,
            3 => self.below(count + 1),
            4 => self.below(index + 1),
            _ => index + 2 + self.below(4),
        };
        self.add_cbranch(target, condition, draft);
    }

    /// Adds a CBRANCH to a target in the list, or once in a while to ram.
    fn add_cbranch(&mut self, target: u64, condition: Varnode, draft: &mut Draft) {
        let in_ram = self.address_in_ram();
        let destination = if self.once_in(8) { in_ram } else { relative(target, draft) };
        draft.entries.push(cbranch(destination, condition));
    }

    fn address_in_ram(&mut self) -> Varnode {
        Varnode { space: RAM, offset: self.lists.random.operand(8), size: self.lists.size() }
    }

    /// A condition that is so from the start on: a constant, or a place that mostly is public.
    fn condition(&mut self, is_taken: bool, draft: &mut Draft) -> Varnode {
        let value = if is_taken { self.pick(&[1, 1, 2, 0x80, 0xff]) } else { 0 };
        let place = self.lists.output(1, &draft.frame.lengths);
        let Some(place) = place.filter(|_| !self.once_in(4)) else {
            return constant(value, 1);
        };
        draft.values.push((place, value));
        if !self.once_in(10) {
            draft.labels.push((place, PUBLIC));
        }
        place
    }

    /// Adds an operation if there is one, or else any.
    pub(super) fn add_or_any(&mut self, entry: Option<Entry>, draft: &mut Draft) {
        match entry {
            Some(entry) => draft.entries.push(entry),
            None => self.add_operation(draft),
        }
    }

    /// Adds a LOAD or a STORE in bounds.
    fn add_access(&mut self, draft: &mut Draft) {
        let entry = self.access_entry(draft).and_then(|mut access| {
            let pointer = self.pointer_in_bounds(&access, draft)?;
            point(&mut access, constant(pointer, draft.frame.address_size));
            Some(access)
        });
        self.add_or_any(entry, draft);
    }

    /// A LOAD or a STORE with any pointer, if there is room for one.
    fn access_entry(&mut self, draft: &Draft) -> Option<Entry> {
        let operation = self.access();
        self.lists.entry_with_room(&operation, &draft.frame, draft.index())
    }

    /// A pointer in bounds for a LOAD or a STORE, if there is one.
    pub(super) fn pointer_in_bounds(&mut self, access: &Entry, draft: &Draft) -> Option<u64> {
        let len = draft.frame.lengths.of(access.offsets[INPUT0])?;
        let last = len.checked_sub(accessed_size(access))? / draft.wordsize(access);
        Some(self.below(1 + last.min(largest_value(draft.frame.address_size))))
    }

    /// Adds an operation that writes over what an operation before it reads or writes, or over its own
    /// input.
    fn add_overwrite(&mut self, draft: &mut Draft) {
        let entry = self.used_place(draft).and_then(|target| {
            let any = self.lists.input(target.size, &draft.frame.lengths);
            let input = if self.once_in(3) { Some(target) } else { any }?;
            Some(match self.below(3) {
                0 => copy(target, input),
                1 => binary(self.pick(&[Opcode::IntAdd, Opcode::IntXor]), target, input),
                _ => store_to(target, input, draft).unwrap_or(copy(target, input)),
            })
        });
        self.add_or_any(entry, draft);
    }

    /// A place in memory that one of the last operations writes, or has as its input1 (as a CBRANCH has its
    /// condition), or once in a while any.
    pub(super) fn used_place(&mut self, draft: &Draft) -> Option<Varnode> {
        let place = self.pick(&[OUTPUT, OUTPUT, INPUT1]);
        let last = draft.entries.iter().rev().take(8);
        let varnodes = last.map(|entry| varnode(entry.descriptors[place], entry.offsets[place]));
        let used: Vec<Varnode> =
            varnodes.filter(|varnode| draft.frame.lengths.of(varnode.space).is_some()).collect();
        if used.is_empty() || self.once_in(6) {
            let size = self.lists.size();
            return self.lists.output(size, &draft.frame.lengths);
        }
        Some(self.pick(&used))
    }

    /// Adds an operation that must find something public, on a place that mostly is not.
    fn add_sink(&mut self, draft: &mut Draft) {
        let entry = self.sink(draft).and_then(|(mut entry, place, size)| {
            let sink = self.lists.output(size, &draft.frame.lengths)?;
            put(&mut entry, place, sink);
            if !self.once_in(8) {
                let offset = sink.offset + self.below(size);
                draft.labels.push((Varnode { offset, size: 1, ..sink }, SECRET));
            }
            Some(entry)
        });
        self.add_or_any(entry, draft);
    }

    /// An operation that must find something public, if there is room for one, with the place and the size
    /// of that.
    pub(super) fn sink(&mut self, draft: &Draft) -> Option<(Entry, usize, u64)> {
        let opcode = self.pick(&SINKS);
        let operation = OPERATIONS[opcode as usize - 1];
        let entry = self.lists.entry_with_room(&operation, &draft.frame, draft.index())?;
        let place = match operation.input_count {
            1 => INPUT0,
            _ if operation.divides() => self.pick(&[INPUT0, INPUT1]),
            _ => INPUT1,
        };
        Some((entry, place, u64::from(entry.descriptors[place] % 16)))
    }

    /// Adds an operation that closes a window.
    fn add_way_out(&mut self, draft: &mut Draft) {
        let address_size = draft.frame.address_size;
        let entry = match self.below(8) {
            0 => Some(branch(Opcode::Branch, self.address_in_ram())),
            1 => Some(branch(Opcode::Call, self.address_in_ram())),
            2 => Some(branch(self.pick(&INDIRECT), self.lists.constant(address_size))),
            3 => Some(cbranch(self.address_in_ram(), self.condition(true, draft))),
            4 => Some(branch(Opcode::Branch, relative(draft.frame.count, draft))),
            5 => self.access_entry(draft).map(|mut access| {
                point(&mut access, constant(largest_value(address_size), address_size));
                access
            }),
            _ => {
                let size = self.lists.size();
                let place = self.lists.output(size, &draft.frame.lengths);
                place.map(|place| binary(self.pick(&DIVISIONS), place, constant(0, size)))
            }
        };
        self.add_or_any(entry, draft);
    }

    /// Adds a look into a table behind a check of its index, and an access at what was found there, which
    /// mostly is secret. The right way mostly leaves them out.
    fn add_table_access(&mut self, draft: &mut Draft) {
        let entries = self.table_access(draft);
        match entries {
            Some(entries) => draft.entries.extend(entries),
            None => self.add_operation(draft),
        }
    }

    fn table_access(&mut self, draft: &mut Draft) -> Option<[Entry; 4]> {
        let Frame { address_size: size, lengths, .. } = draft.frame;
        let [index, found] = [(); 2].map(|()| self.lists.output(size, &lengths));
        let (index, found) = index.zip(found)?;
        let condition = self.lists.output(1, &lengths)?;
        let space = self.pick(&[UNIQUE, REGISTER, RAM]);
        let load = [Some(found), Some(constant(space, 1)), Some(index), None];
        let load = Entry::new(Opcode::Load as u8, load);
        let mut access = self.access_entry(draft)?;
        point(&mut access, found);
        let pointer = self.pointer_in_bounds(&load, draft)?;
        let limit = if self.once_in(6) { pointer + 1 } else { self.below(pointer + 1) };
        let limit = constant(limit.min(largest_value(size)), size);
        draft.values.push((index, pointer));
        if !self.once_in(6) {
            let offset = pointer * draft.wordsize(&load);
            draft.labels.push((Varnode { space, offset, size }, SECRET));
        }
        draft.labels.push((index, PUBLIC));
        let check = [Some(condition), Some(limit), Some(index), None];
        let check = Entry::new(Opcode::IntLessEqual as u8, check);
        let past_the_access = constant(3.min(draft.frame.count - draft.index() - 1), 8);
        Some([check, cbranch(past_the_access, condition), load, access])
    }
}

pub(super) fn constant(offset: u64, size: u64) -> Varnode {
    Varnode { space: CONSTANT, offset, size }
}

/// A destination in the list, at most its end, for the operation that is added next.
fn relative(target: u64, draft: &Draft) -> Varnode {
    constant(target.min(draft.frame.count).wrapping_sub(draft.index()), 8)
}

fn cbranch(destination: Varnode, condition: Varnode) -> Entry {
    Entry::new(Opcode::Cbranch as u8, [None, Some(destination), Some(condition), None])
}

/// An operation whose only input says where it goes.
fn branch(opcode: Opcode, input0: Varnode) -> Entry {
    Entry::new(opcode as u8, [None, Some(input0), None, None])
}

/// A STORE of an input to a place, if a pointer reaches it.
fn store_to(place: Varnode, input: Varnode, draft: &Draft) -> Option<Entry> {
    let wordsize = draft.settings.wordsizes.of(place.space)?;
    let pointer = constant(place.offset / wordsize, draft.frame.address_size);
    let is_reached = place.offset % wordsize == 0 && fits(pointer.offset, pointer.size);
    let varnodes = [None, Some(constant(place.space, 1)), Some(pointer), Some(input)];
    is_reached.then(|| Entry::new(Opcode::Store as u8, varnodes))
}
