//! An execution.

use super::{image_mut, Lend};
use crate::machine::{execute_reference, execute_refusal, image_of, write_log};
use crate::{Lent, Rng, Rom};
use magnetar_cpu::{words, Cursor};

#[derive(Clone)]
pub struct Executing<'a> {
    pub rom: &'a Rom,
    pub max_cycles: u64,
    pub rows: Lent<u64>,
    pub input: Lent<u64>,
    pub records: Lent<u64>,
    pub cursor: Lent<u64>,
    pub live: Lent<u64>,
    pub record_count: Lent<u64>,
}

impl<'a> Executing<'a> {
    /// All that is to be written to is random; the record buffer has `room`
    /// words.
    pub fn new(rom: &'a Rom, input: &[u64], max_cycles: u64, room: usize, rng: &mut Rng) -> Self {
        Executing {
            rom,
            max_cycles,
            rows: Lent::rows(&rom.rows),
            input: Lent::new(input, |_| rng.doubleword()),
            records: Lent::buffer(room, rng),
            cursor: Lent::buffer(Cursor::WORDS, rng),
            live: Lent::buffer(1, rng),
            record_count: Lent::buffer(1, rng),
        }
    }
}

impl Lend for Executing<'_> {
    fn library(&mut self) -> u64 {
        words::execute(
            self.rows.words(),
            self.input.words(),
            self.max_cycles,
            self.records.words_mut(),
            image_mut(&mut self.cursor),
            &mut self.live.words_mut()[0],
            &mut self.record_count.words_mut()[0],
        )
    }

    fn model(&mut self) -> u64 {
        let room = self.records.words().len();
        let answer = execute_refusal(self.rom, self.max_cycles, room);
        if answer == 0 {
            let input = self.input.words();
            let (log, cursor) = execute_reference(&self.rom.rows, input, self.max_cycles as usize);
            write_log(&log, self.records.words_mut());
            self.live.words_mut()[0] = cursor.st.cycles as u64;
            self.record_count.words_mut()[0] = log.len() as u64;
            *image_mut(&mut self.cursor) = image_of(&cursor);
        }
        answer
    }

    fn compare(&self, wanted: &Self) -> Result<(), String> {
        self.rows.compare(&wanted.rows, "rows")?;
        self.input.compare(&wanted.input, "input")?;
        self.live.compare(&wanted.live, "live")?;
        let count = "record_count";
        self.record_count.compare(&wanted.record_count, count)?;
        self.cursor.compare(&wanted.cursor, "cursor")?;
        self.records.compare(&wanted.records, "records")
    }

    fn about(&self) -> String {
        let (rows, input) = (self.rows.words().len(), self.input.words().len());
        let room = self.records.words().len();
        let max_cycles = self.max_cycles;
        format!("{rows} rows, {input} input words, max_cycles {max_cycles}, room {room}")
    }
}
