//! A safe wrapper over the static library: slices in, slices lent, numbers back.
//!
//! The library promises its answer for any numbers in these slices and asks nothing else of its caller, so that nothing here tests anything. What a
//! proof cannot ask of a caller in another language, that pointers are valid, that what is lent is initialised, and that what is written is lent to nobody
//! else, Rust's borrows give. One thing is left to the caller: a stack of [`STACK`] bytes.

/// Numbers a node of a table has: kind, width, a, b, c, imm.
pub const NODE: usize = 6;
/// u32 a gate: kind, x, y, z.
pub const GATE: usize = 4;
/// u32 a constraint: gate, value.
pub const CONSTRAINT: usize = 2;
/// What the map holds for the bits of a node that was not reached.
pub const UNREACHED: u32 = u32::MAX;
/// Bytes of stack that are enough for a thread that calls, whatever the table. The lowering visits operands by recursion, up to 512 nodes deep, and the
/// process dies where the stack ends before. `bindings/stack.rs` runs the deepest tables on threads of this size.
pub const STACK: usize = 512 << 10;

/// Constants, and `ALL` of them with their names.
macro_rules! numbered {
    ($number:ty: $($name:ident = $value:literal),* $(,)?) => {
        $(pub const $name: $number = $value;)*
        /// Each with its name.
        pub const ALL: &[($number, &str)] = &[$(($value, stringify!($name))),*];
    };
}

/// The kinds of nodes. The program's text has the names in small letters. DIV, NEXT and COMMENT are named and not lowered: refusal 4.
pub mod kind {
    numbered! { u64:
        CONST = 1, INPUT = 2, STATE = 3, NOT = 4, BAD = 5, AND = 6, EXT = 7, EQ = 8, ADD = 9, ITE = 10, SUB = 11, ULT = 12, MUL = 13, DIVU = 14, REM = 15,
        READ = 16, WRITE = 17, OR = 18, DIV = 19, SLL = 20, SRL = 21, NEXT = 22, COMMENT = 23, SEXT = 24,
    }
}

/// The kinds of gates. INPUT_BIT, QUOTIENT and REMAINDER are free: x is a node, y a bit of it, and the value is given from outside.
pub mod gate {
    numbered! { u32:
        CONST_FALSE = 0, CONST_TRUE = 1, INPUT_BIT = 2, NOT = 3, AND = 4, NAND = 5, OR = 6, MATRIARCH1 = 7, CARRY_HALF = 8, RESULT_HALF = 9,
        CARRY_FULL = 10, RESULT_FULL = 11, QUOTIENT = 12, REMAINDER = 13,
    }
}

/// A number of the refusal sheet, 1 to 14 without 10, and the node or gate beside it (0 for none).
#[derive(Clone, Copy, Debug, PartialEq, Eq)]
pub struct Refusal {
    pub number: u64,
    pub node: usize,
}

/// How many records of the lent gates and constraints were written.
#[derive(Clone, Copy, Debug, PartialEq, Eq)]
pub struct Lowered {
    pub gates: usize,
    pub constraints: usize,
}

/// What the lowering of a table asks for: records of gates and of constraints, and places of the map.
#[derive(Clone, Copy, Debug, PartialEq, Eq)]
pub struct Room {
    pub gates: usize,
    pub constraints: usize,
    pub map: usize,
}

mod raw {
    extern "C" {
        pub fn ramstitcher_room(
            table: *const u64,
            table_length: usize,
            addresses: *const u64,
            addresses_length: usize,
            word: u64,
            node: *mut usize,
            gates: *mut u64,
            constraints: *mut u64,
            map: *mut u64,
        ) -> u64;
        pub fn ramstitcher_lower(
            table: *const u64,
            table_length: usize,
            addresses: *const u64,
            addresses_length: usize,
            word: u64,
            gates: *mut u32,
            gates_length: usize,
            constraints: *mut u32,
            constraints_length: usize,
            map: *mut u32,
            map_length: usize,
            node: *mut usize,
            gate_count: *mut usize,
            constraint_count: *mut usize,
        ) -> u64;
        pub fn ramstitcher_eval_words(
            table: *const u64,
            table_length: usize,
            addresses: *const u64,
            addresses_length: usize,
            word: u64,
            values: *mut u64,
            values_length: usize,
            node: *mut usize,
        ) -> u64;
        pub fn ramstitcher_eval_gates(
            gates: *const u32,
            gates_length: usize,
            values: *mut u8,
            values_length: usize,
            gate: *mut usize,
        ) -> u64;
    }
}

fn answer(number: u64, node: usize) -> Result<(), Refusal> {
    if number == 0 {
        Ok(())
    } else {
        Err(Refusal { number, node })
    }
}

/// The room that the lowering of a table asks for; or its refusal, 1 to 6. A table with no bad node has room here; the lowering refuses it with 14.
pub fn room(table: &[u64], addresses: &[u64], word: u64) -> Result<Room, Refusal> {
    let (mut node, mut gates, mut constraints, mut map) = (0, 0, 0, 0);
    // SAFETY: each pointer and length is of one slice, and nothing else refers to what is written.
    let number = unsafe {
        raw::ramstitcher_room(
            table.as_ptr(),
            table.len(),
            addresses.as_ptr(),
            addresses.len(),
            word,
            &mut node,
            &mut gates,
            &mut constraints,
            &mut map,
        )
    };
    // the library is for 64-bit machines alone
    answer(number, node).map(|()| Room { gates: gates as usize, constraints: constraints as usize, map: map as usize })
}

/// Lowers a table into the lent buffers. On success the first records of gates and of constraints, as many as are counted, and the places of all nodes in the
/// map are written, and the rest of each buffer is as it was. A refusal leaves the buffers as they were.
pub fn lower(
    table: &[u64],
    addresses: &[u64],
    word: u64,
    gates: &mut [u32],
    constraints: &mut [u32],
    map: &mut [u32],
) -> Result<Lowered, Refusal> {
    let (mut node, mut made, mut held) = (0, 0, 0);
    // SAFETY: each pointer and length is of one slice, and the slices that are written are borrowed for this call alone.
    let number = unsafe {
        raw::ramstitcher_lower(
            table.as_ptr(),
            table.len(),
            addresses.as_ptr(),
            addresses.len(),
            word,
            gates.as_mut_ptr(),
            gates.len(),
            constraints.as_mut_ptr(),
            constraints.len(),
            map.as_mut_ptr(),
            map.len(),
            &mut node,
            &mut made,
            &mut held,
        )
    };
    answer(number, node).map(|()| Lowered { gates: made, constraints: held })
}

/// The values of all nodes, in node order: a node of width 0, a memory, has a slot for each listed address, any other node has one. So many slots are to be
/// lent. Given slots (of inputs, and of states without an initial node) are read and stay, the other nodes' are worked out, and slots beyond stay as they
/// were. A refusal leaves the slots as they were.
pub fn eval_words(table: &[u64], addresses: &[u64], word: u64, values: &mut [u64]) -> Result<(), Refusal> {
    let mut node = 0;
    // SAFETY: as above.
    let number = unsafe {
        raw::ramstitcher_eval_words(
            table.as_ptr(),
            table.len(),
            addresses.as_ptr(),
            addresses.len(),
            word,
            values.as_mut_ptr(),
            values.len(),
            &mut node,
        )
    };
    answer(number, node)
}

/// The values of a gate list, one byte a gate, 0 or 1. The bytes of free gates are read and stay, the other gates' are worked out, and bytes beyond stay as
/// they were. A refusal leaves the bytes as they were.
pub fn eval_gates(gates: &[u32], values: &mut [u8]) -> Result<(), Refusal> {
    let mut gate = 0;
    // SAFETY: as above.
    let number =
        unsafe { raw::ramstitcher_eval_gates(gates.as_ptr(), gates.len(), values.as_mut_ptr(), values.len(), &mut gate) };
    answer(number, gate)
}
