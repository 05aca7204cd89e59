//! Machines with wrong cycles.

use super::{OfCycle, Variant};
use crate::lending::image_mut;
use crate::machine::{cursor_of, image_of, run_reference};
use crate::{pack, Call, Running, STAGES};
use magnetar_cpu::RECORD_WORDS;
use magnetar_reference::expand::{ExpandedProgram, RomRow, VirtualKind};
use magnetar_reference::interp::{CycleRecord, StreamCursor};

/// Where instructions with destination 0 write.
const SPARE: usize = 32;

/// A cycle that the reference has run.
pub struct Cycle<'a> {
    program: &'a ExpandedProgram,
    row: &'a RomRow,
    is_padding: bool,
    before: StreamCursor,
    after: &'a mut StreamCursor,
    record: &'a mut CycleRecord,
}

impl Cycle<'_> {
    /// Whether it was a live cycle of this kind.
    fn is(&self, kind: VirtualKind) -> bool {
        !self.is_padding && self.row.kind == kind
    }

    /// Whether it was a live cycle of a word with this opcode.
    fn has_opcode(&self, opcode: u32) -> bool {
        !self.is_padding && self.row.raw & 0x7f == opcode
    }

    /// Whether it was a live cycle of an Alu row with funct3 2.
    fn is_slt(&self) -> bool {
        self.is(VirtualKind::Alu) && self.row.funct3 == 2
    }

    /// The byte distance of a branch that was taken, or of a JAL.
    fn distance(&self) -> Option<i64> {
        let jumps = self.record.branch_taken || self.has_opcode(0x6f);
        jumps.then_some(self.row.imm as i64)
    }

    /// Changes what was written.
    fn write(&mut self, value: u64) {
        self.record.rd_val = value;
        self.record.alu_out = value;
        self.after.st.regs[self.record.rd] = value;
    }

    /// Changes what the next row is.
    fn go_to(&mut self, row: usize) {
        self.record.next_pc = row;
        self.after.st.micro_pc = row;
        self.after.next_fetch = row;
    }

    /// Goes to the row that many rows away.
    fn go_by(&mut self, rows: i64) {
        let target = (self.record.micro_pc as i64 + rows).max(0) as usize;
        self.go_to(target % self.program.rows.len());
    }
}

pub const WRONG: [Variant<OfCycle>; 27] = [
    ("cell 0 is cleared after a shift", cleared_cell),
    ("a stage is logged as a write", logged_stage),
    ("cell 0 is a destination", |cycle| {
        if cycle.record.rd == SPARE {
            cycle.record.rd = 0;
        }
    }),
    ("destination 0 is written nowhere", |cycle| {
        cycle.after.st.regs[SPARE] = cycle.before.st.regs[SPARE];
    }),
    ("padding of a live machine writes nothing", |cycle| {
        if cycle.is_padding && !cycle.before.st.halted {
            cycle.after.st.regs = cycle.before.st.regs;
        }
    }),
    ("padding counts cycles", |cycle| {
        if cycle.is_padding {
            cycle.after.st.cycles = cycle.before.st.cycles.wrapping_add(1);
        }
    }),
    ("padding of a live machine halts it", |cycle| {
        cycle.after.st.halted |= cycle.is_padding;
    }),
    ("padding is at micro_pc", |cycle| {
        if cycle.is_padding {
            cycle.record.micro_pc = cycle.before.st.micro_pc;
        }
    }),
    ("a live cycle is at next_fetch", |cycle| {
        if !cycle.is_padding {
            cycle.record.micro_pc = cycle.before.next_fetch;
        }
    }),
    ("padding moves micro_pc", |cycle| {
        if cycle.is_padding {
            cycle.after.st.micro_pc = cycle.after.next_fetch;
        }
    }),
    ("a live cycle leaves next_fetch", |cycle| {
        cycle.after.next_fetch = cycle.before.next_fetch;
    }),
    ("a halting cycle moves on", |cycle| {
        if cycle.is(VirtualKind::System) {
            cycle.go_by(1);
        }
    }),
    ("the row after the last is not the first", |cycle| {
        if !cycle.is_padding && cycle.record.micro_pc + 1 == cycle.program.rows.len() {
            cycle.record.next_pc = cycle.program.rows.len();
        }
    }),
    ("a negative quarter is rounded down", |cycle| {
        if let Some(distance) = cycle.distance() {
            cycle.go_by(distance.div_euclid(4));
        }
    }),
    ("targets count instructions", instruction_target),
    ("a target before row 0 comes from the end", |cycle| {
        if let Some(distance) = cycle.distance() {
            let target = cycle.record.micro_pc as i64 + distance / 4;
            cycle.go_to(target.rem_euclid(cycle.program.rows.len() as i64) as usize);
        }
    }),
    ("the target of JALR is signed", |cycle| {
        if cycle.has_opcode(0x67) {
            let target = cycle.record.rs1_val.wrapping_add(cycle.row.imm) as i64;
            cycle.go_to((target / 4).max(0) as usize % cycle.program.rows.len());
        }
    }),
    ("rd_old of a jump is from before its write", |cycle| {
        if cycle.is(VirtualKind::Jump) {
            cycle.record.rd_old = cycle.before.st.regs[cycle.record.rd];
        }
    }),
    ("rs1 is read after the write", |cycle| {
        cycle.record.rs1_val = cycle.after.st.regs[cycle.row.rs1];
    }),
    ("the RAM word is read after the store", |cycle| {
        cycle.record.ram_word = cycle.after.st.ram[cycle.record.ram_addr];
    }),
    ("funct3 2 gives 0", |cycle| {
        if cycle.is_slt() {
            cycle.write(0);
        }
    }),
    ("funct3 2 compares unsigned", |cycle| {
        if cycle.is_slt() {
            cycle.write(u64::from(cycle.record.alu_a < cycle.record.alu_b));
        }
    }),
    ("funct3 2 has its operands changed over", |cycle| {
        if cycle.is_slt() {
            let (a, b) = (cycle.record.alu_a as i64, cycle.record.alu_b as i64);
            cycle.write(u64::from(b < a));
        }
    }),
    ("funct3 2 has the flag we alone", |cycle| {
        if cycle.is_slt() {
            cycle.record.is_arith = false;
            cycle.record.is_sub_op = false;
        }
    }),
    ("byte loads extend the sign", |cycle| {
        if cycle.is(VirtualKind::Load) && cycle.row.funct3 == 0 {
            let value = cycle.record.rd_val as i8 as u64;
            cycle.record.rd_val = value;
            cycle.after.st.regs[cycle.record.rd] = value;
        }
    }),
    ("LUI extends the sign", |cycle| {
        if cycle.has_opcode(0x37) {
            cycle.write(cycle.record.rd_val as i32 as u64);
        }
    }),
    ("AUIPC adds the row", |cycle| {
        if cycle.has_opcode(0x17) {
            cycle.write(cycle.row.imm + cycle.record.micro_pc as u64);
        }
    }),
];

fn cleared_cell(cycle: &mut Cycle) {
    let stage = STAGES - 1;
    if cycle.is(VirtualKind::ShiftStage { stage }) {
        cycle.after.st.regs[0] = 0;
    }
}

fn logged_stage(cycle: &mut Cycle) {
    if matches!(cycle.row.kind, VirtualKind::ShiftStage { .. }) && !cycle.is_padding {
        cycle.record.rd_val = cycle.record.alu_out;
    }
}

fn instruction_target(cycle: &mut Cycle) {
    let starts = &cycle.program.inst_to_micro;
    if let Some(distance) = cycle.distance() {
        let instruction = starts.binary_search(&cycle.record.micro_pc);
        let here = instruction.expect("a branch begins an instruction");
        let target = (here as i64 + distance / 4).max(0) as usize;
        cycle.go_to(starts[target % starts.len()]);
    }
}

/// An accepted call once more, one cycle at a time, where each may go wrong. A
/// refused one runs no cycle.
pub fn run_wrong(before: &Running, after: &mut Running, wrong: OfCycle) {
    if before.refusal() > 0 {
        return;
    }
    let call = before.call;
    let program = before.rom.program.as_ref().expect("accepted rows");
    let mut cursor = cursor_of(&before.image());
    let places = after.records.words_mut().chunks_exact_mut(RECORD_WORDS);
    for place in places.take(before.length as usize) {
        let cursor_before = cursor.clone();
        let mut record = run_reference(call, program, &mut cursor, 1).remove(0);
        wrong(&mut Cycle {
            program,
            row: &program.rows[record.micro_pc].row,
            is_padding: call == Call::Padding || cursor_before.st.halted,
            before: cursor_before,
            after: &mut cursor,
            record: &mut record,
        });
        place.copy_from_slice(&pack(&record));
    }
    *image_mut(&mut after.cursor) = image_of(&cursor);
}
