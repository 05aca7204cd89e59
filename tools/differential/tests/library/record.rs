//! The view of a record against the fields of the reference's record.

use differential::{pack, Rng};
use magnetar_cpu::Record;
use magnetar_reference::interp::CycleRecord;

fn random_record(rng: &mut Rng) -> CycleRecord {
    let mut flag = || rng.below(2) == 1;
    let flags: [bool; 12] = std::array::from_fn(|_| flag());
    let mut word = || rng.doubleword();
    CycleRecord {
        micro_pc: word() as usize,
        rs1_val: word(),
        rs2_val: word(),
        rd_val: word(),
        rd_old: word(),
        rd: word() as usize,
        ram_addr: word() as usize,
        ram_word: word(),
        ram_old: word(),
        ram_new: word(),
        store_src: word(),
        next_pc: word() as usize,
        alu_a: word(),
        alu_b: word(),
        alu_out: word(),
        shift_out: word(),
        byte_offset: word() as u8,
        store_width: word() as u8,
        we: flags[0],
        branch_taken: flags[1],
        is_arith: flags[2],
        is_logic: flags[3],
        is_sub_op: flags[4],
        is_shift: flags[5],
        is_load: flags[6],
        is_store: flags[7],
        ld_byte: flags[8],
        ld_half: flags[9],
        ld_word: flags[10],
        halted_latch: flags[11],
    }
}

/// The reference's record that the view shows.
fn seen(record: Record) -> CycleRecord {
    CycleRecord {
        micro_pc: record.micro_pc() as usize,
        rs1_val: record.rs1_val(),
        rs2_val: record.rs2_val(),
        rd_val: record.rd_val(),
        rd_old: record.rd_old(),
        rd: record.rd() as usize,
        ram_addr: record.ram_addr() as usize,
        ram_word: record.ram_word(),
        ram_old: record.ram_old(),
        ram_new: record.ram_new(),
        store_src: record.store_src(),
        next_pc: record.next_pc() as usize,
        alu_a: record.alu_a(),
        alu_b: record.alu_b(),
        alu_out: record.alu_out(),
        shift_out: record.shift_out(),
        byte_offset: record.byte_offset(),
        store_width: record.store_width(),
        we: record.we(),
        branch_taken: record.branch_taken(),
        is_arith: record.is_arith(),
        is_logic: record.is_logic(),
        is_sub_op: record.is_sub_op(),
        is_shift: record.is_shift(),
        is_load: record.is_load(),
        is_store: record.is_store(),
        ld_byte: record.ld_byte(),
        ld_half: record.ld_half(),
        ld_word: record.ld_word(),
        halted_latch: record.halted_latch(),
    }
}

#[test]
fn every_field_by_its_name() {
    let rng = &mut Rng::new(0x5245_434f);
    for _ in 0..100 {
        let record = random_record(rng);
        assert_eq!(seen(Record::new(&pack(&record))), record);
    }
}
