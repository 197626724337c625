//! A plain p-code interpreter in safe Rust, to time against: the same operations, endings and log,
//! for lists that are known to be well-formed, in spaces of wordsize 1.
//!
//! Operations are decoded once, before the run: that is faster than decoding them in the loop.

/// A varnode: a space, how many bytes it has, and where it starts.
#[derive(Clone, Copy)]
struct Varnode {
    space: u8,
    size: u8,
    offset: u64,
}

/// A decoded operation. An absent varnode has size 0.
#[derive(Clone, Copy)]
pub struct Operation {
    opcode: u8,
    output: Varnode,
    input0: Varnode,
    input1: Varnode,
    input2: Varnode,
}

/// Decodes the five words of each operation.
pub fn decode(list: &[u64]) -> Vec<Operation> {
    let (operations, _) = list.as_chunks::<5>();
    operations.iter().map(decode_operation).collect()
}

fn decode_operation(words: &[u64; 5]) -> Operation {
    let [head, offsets @ ..] = *words;
    let [opcode, descriptors @ ..] = head.to_le_bytes();
    let varnode = |place: usize| Varnode {
        space: descriptors[place] / 16,
        size: descriptors[place] % 16,
        offset: offsets[place],
    };
    Operation {
        opcode,
        output: varnode(0),
        input0: varnode(1),
        input1: varnode(2),
        input2: varnode(3),
    }
}

/// The three spaces, and the byte order of their values.
pub struct Memory<'a> {
    pub is_big: bool,
    pub unique: &'a mut [u8],
    pub register: &'a mut [u8],
    pub ram: &'a mut [u8],
}

const CONSTANT: u8 = 1;
const UNIQUE: u8 = 2;
const REGISTER: u8 = 3;

impl Memory<'_> {
    fn space(&self, number: u8) -> &[u8] {
        match number {
            UNIQUE => self.unique,
            REGISTER => self.register,
            _ => self.ram,
        }
    }

    fn space_mut(&mut self, number: u8) -> &mut [u8] {
        match number {
            UNIQUE => self.unique,
            REGISTER => self.register,
            _ => self.ram,
        }
    }

    #[inline(always)]
    fn value(&self, varnode: Varnode) -> u64 {
        if varnode.space == CONSTANT {
            return varnode.offset;
        }
        self.read(varnode.space, varnode.offset as usize, varnode.size as usize)
    }

    #[inline(always)]
    fn read(&self, space: u8, offset: usize, size: usize) -> u64 {
        let bytes = &self.space(space)[offset..offset + size];
        // The usual sizes are read at once.
        match *bytes {
            [byte] => return u64::from(byte),
            [b0, b1, b2, b3] => {
                let half = [b0, b1, b2, b3];
                return u64::from(if self.is_big {
                    u32::from_be_bytes(half)
                } else {
                    u32::from_le_bytes(half)
                });
            }
            [b0, b1, b2, b3, b4, b5, b6, b7] => {
                let word = [b0, b1, b2, b3, b4, b5, b6, b7];
                return if self.is_big {
                    u64::from_be_bytes(word)
                } else {
                    u64::from_le_bytes(word)
                };
            }
            _ => (),
        }
        let push = |value: u64, byte: &u8| (value << 8) | u64::from(*byte);
        if self.is_big {
            bytes.iter().fold(0, push)
        } else {
            bytes.iter().rev().fold(0, push)
        }
    }

    #[inline(always)]
    fn write(&mut self, space: u8, offset: usize, size: usize, value: u64) {
        let is_big = self.is_big;
        let bytes = &mut self.space_mut(space)[offset..offset + size];
        if let Ok(word) = <&mut [u8; 8]>::try_from(&mut *bytes) {
            *word = if is_big { value.to_be_bytes() } else { value.to_le_bytes() };
        } else if let Ok(half) = <&mut [u8; 4]>::try_from(&mut *bytes) {
            let value = value as u32;
            *half = if is_big { value.to_be_bytes() } else { value.to_le_bytes() };
        } else if let [byte] = bytes {
            *byte = value as u8;
        } else {
            for (place, byte) in bytes.iter_mut().enumerate() {
                let digit = if is_big { size - 1 - place } else { place };
                *byte = (value >> (8 * digit)) as u8;
            }
        }
    }
}

/// What an operation does to the run.
enum Next {
    Following,
    Index(usize),
    Exit(u64),
    Stop(u64),
}

const END: u64 = 0;
const EXIT: u64 = 1;
const BUDGET: u64 = 2;
const BOUNDS: u64 = 32;
const ZERO: u64 = 33;
const LOG: u64 = 34;

/// Runs decoded operations. Gives back the five numbers of a report.
pub fn run(
    operations: &[Operation],
    start: usize,
    budget: u32,
    memory: &mut Memory,
    log: &mut [u64],
) -> [u64; 5] {
    let mut machine = Machine { memory, log, log_words: 0 };
    let mut index = start;
    let mut executed: u32 = 0;
    let (ending, value) = loop {
        let Some(operation) = operations.get(index) else {
            break (END, 0);
        };
        if executed == budget {
            break (BUDGET, 0);
        }
        match machine.execute(operation, index) {
            Next::Following => index += 1,
            Next::Index(target) => index = target,
            Next::Exit(destination) => {
                executed += 1;
                break (EXIT, destination);
            }
            Next::Stop(ending) => break (ending, 0),
        }
        executed += 1;
    };
    [ending, index as u64, u64::from(executed), machine.log_words as u64, value]
}

struct Machine<'a, 'b> {
    memory: &'a mut Memory<'b>,
    log: &'a mut [u64],
    log_words: usize,
}

impl Machine<'_, '_> {
    #[inline(always)]
    fn execute(&mut self, operation: &Operation, index: usize) -> Next {
        match operation.opcode {
            2 => self.load(operation, index),
            3 => self.store(operation, index),
            4 | 7 => destination(operation, index),
            5 => self.cbranch(operation, index),
            6 | 8 | 9 => Next::Exit(self.memory.value(operation.input0)),
            _ => self.compute(operation),
        }
    }

    /// The offset of a LOAD or a STORE, if its bytes are in the space.
    #[inline(always)]
    fn pointer(&self, operation: &Operation, size: u8) -> Option<usize> {
        let pointer = self.memory.value(operation.input1);
        let len = self.memory.space(operation.input0.offset as u8).len() as u64;
        let end = pointer.checked_add(u64::from(size))?;
        (end <= len).then_some(pointer as usize)
    }

    #[inline(always)]
    fn load(&mut self, operation: &Operation, index: usize) -> Next {
        let output = operation.output;
        let Some(offset) = self.pointer(operation, output.size) else {
            return Next::Stop(BOUNDS);
        };
        if !self.write_log(index, offset as u64) {
            return Next::Stop(LOG);
        }
        let space = operation.input0.offset as u8;
        let value = self.memory.read(space, offset, output.size as usize);
        self.write_output(output, value)
    }

    #[inline(always)]
    fn store(&mut self, operation: &Operation, index: usize) -> Next {
        let input2 = operation.input2;
        let Some(offset) = self.pointer(operation, input2.size) else {
            return Next::Stop(BOUNDS);
        };
        if !self.write_log(index, offset as u64) {
            return Next::Stop(LOG);
        }
        let value = self.memory.value(input2);
        self.memory.write(operation.input0.offset as u8, offset, input2.size as usize, value);
        Next::Following
    }

    #[inline(always)]
    fn cbranch(&mut self, operation: &Operation, index: usize) -> Next {
        let is_taken = self.memory.value(operation.input1) != 0;
        if !self.write_log(index, u64::from(is_taken)) {
            return Next::Stop(LOG);
        }
        if is_taken {
            destination(operation, index)
        } else {
            Next::Following
        }
    }

    #[inline(always)]
    fn compute(&mut self, operation: &Operation) -> Next {
        let a = self.memory.value(operation.input0);
        let b = if operation.input1.size == 0 { 0 } else { self.memory.value(operation.input1) };
        match result(operation, a, b) {
            Some(value) => self.write_output(operation.output, value),
            None => Next::Stop(ZERO),
        }
    }

    #[inline(always)]
    fn write_output(&mut self, output: Varnode, value: u64) -> Next {
        self.memory.write(output.space, output.offset as usize, output.size as usize, value);
        Next::Following
    }

    /// Writes a log word, if there is room.
    #[inline(always)]
    fn write_log(&mut self, index: usize, detail: u64) -> bool {
        let Some(word) = self.log.get_mut(self.log_words) else {
            return false;
        };
        *word = ((index as u64) << 32) + detail;
        self.log_words += 1;
        true
    }
}

/// Where a branch goes: a constant is a distance.
fn destination(operation: &Operation, index: usize) -> Next {
    let offset = operation.input0.offset;
    if operation.input0.space == CONSTANT {
        Next::Index(index.wrapping_add(offset as usize))
    } else {
        Next::Exit(offset)
    }
}

/// The value of COPY or of an integer operation, unless it divides by 0.
#[inline(always)]
fn result(operation: &Operation, a: u64, b: u64) -> Option<u64> {
    let size = operation.input0.size;
    let bits = 8 * u32::from(size);
    let value = match operation.opcode {
        1 | 19 => a,
        10 => (a << (8 * operation.input1.size)) | b,
        11 => shifted_right(a, b.saturating_mul(8)),
        12 => u64::from(a.count_ones()),
        13 => u64::from(a == b),
        14 => u64::from(a != b),
        15 => u64::from(a < b),
        16 => u64::from(signed(a, size) < signed(b, size)),
        17 => u64::from(a <= b),
        18 => u64::from(signed(a, size) <= signed(b, size)),
        20 => signed(a, size) as u64,
        21 => a.wrapping_add(b),
        22 => a.wrapping_sub(b),
        23 => u64::from(truncated(a.wrapping_add(b), size) < a),
        24 => {
            let sum = signed(a, size).wrapping_add(signed(b, size));
            let signs = (a ^ sum as u64) & (b ^ sum as u64);
            signs >> (bits - 1) & 1
        }
        25 => {
            let difference = signed(a, size).wrapping_sub(signed(b, size));
            let signs = (a ^ b) & (a ^ difference as u64);
            signs >> (bits - 1) & 1
        }
        26 => a.wrapping_neg(),
        27 => !a,
        28 => a ^ b,
        29 => a & b,
        30 => a | b,
        31 => {
            if b >= u64::from(bits) {
                0
            } else {
                a << b
            }
        }
        32 => shifted_right(a, b),
        33 => (signed(a, size) >> b.min(63)) as u64,
        34 => a.wrapping_mul(b),
        35 => a.checked_div(b)?,
        36 => a.checked_rem(b)?,
        37 | 38 if b == 0 => return None,
        37 => signed(a, size).wrapping_div(signed(b, size)) as u64,
        38 => signed(a, size).wrapping_rem(signed(b, size)) as u64,
        39 => u64::from(a == 0),
        40 => u64::from((a != 0) != (b != 0)),
        41 => u64::from(a != 0 && b != 0),
        _ => u64::from(a != 0 || b != 0),
    };
    Some(truncated(value, operation.output.size))
}

/// The low bytes of a value.
fn truncated(value: u64, size: u8) -> u64 {
    value & (u64::MAX >> (64 - 8 * u32::from(size)))
}

/// The two's complement reading of a value.
fn signed(value: u64, size: u8) -> i64 {
    let unused = 64 - 8 * u32::from(size);
    (value << unused) as i64 >> unused
}

/// A shift of a value below 2^width by the width or more gives 0, and so does one by 64 or more.
fn shifted_right(value: u64, amount: u64) -> u64 {
    if amount >= 64 {
        0
    } else {
        value >> amount
    }
}
