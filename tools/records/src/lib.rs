//! The reference's record of a cycle as the 17 words of the specification.

use magnetar_reference::interp::CycleRecord;

/// The 17 words of a record. Inline, because the benchmark times it.
#[inline]
pub fn pack(record: &CycleRecord) -> [u64; 17] {
    [
        record.micro_pc as u64,
        record.rs1_val,
        record.rs2_val,
        record.rd_val,
        record.rd_old,
        record.rd as u64,
        record.ram_addr as u64,
        record.ram_word,
        record.ram_old,
        record.ram_new,
        record.store_src,
        record.next_pc as u64,
        record.alu_a,
        record.alu_b,
        record.alu_out,
        record.shift_out,
        u64::from(record.byte_offset) | u64::from(record.store_width) << 8 | flags(record) << 16,
    ]
}

#[inline]
fn flags(record: &CycleRecord) -> u64 {
    let flags = [
        record.we,
        record.branch_taken,
        record.is_arith,
        record.is_logic,
        record.is_sub_op,
        record.is_shift,
        record.is_load,
        record.is_store,
        record.ld_byte,
        record.ld_half,
        record.ld_word,
        record.halted_latch,
    ];
    let bits = flags.iter().zip(0..);
    bits.fold(0, |word, (&flag, bit)| word | u64::from(flag) << bit)
}

#[cfg(test)]
mod tests {
    use super::*;

    /// In the order of the specification.
    const FLAGS: [fn(&mut CycleRecord) -> &mut bool; 12] = [
        |record| &mut record.we,
        |record| &mut record.branch_taken,
        |record| &mut record.is_arith,
        |record| &mut record.is_logic,
        |record| &mut record.is_sub_op,
        |record| &mut record.is_shift,
        |record| &mut record.is_load,
        |record| &mut record.is_store,
        |record| &mut record.ld_byte,
        |record| &mut record.ld_half,
        |record| &mut record.ld_word,
        |record| &mut record.halted_latch,
    ];

    #[test]
    fn every_flag_has_its_own_bit() {
        for (number, flag) in FLAGS.into_iter().enumerate() {
            let mut record = CycleRecord {
                byte_offset: 7,
                store_width: 8,
                ..Default::default()
            };
            *flag(&mut record) = true;
            assert_eq!(pack(&record)[16], 0x0807 | 0x1_0000 << number);
        }
    }
}
