//! A segment or padding call.

use super::Lend;
use crate::machine::{cursor_of, image_of, refusal, run_reference, write_log};
use crate::{Call, Lent, Rng, Rom};
use magnetar_cpu::{words, Image};

#[derive(Clone)]
pub struct Running<'a> {
    pub call: Call,
    pub rom: &'a Rom,
    pub length: u64,
    pub rows: Lent<u64>,
    pub cursor: Lent<u64>,
    pub records: Lent<u64>,
}

impl<'a> Running<'a> {
    /// The record buffer has `room` words, all random.
    pub fn new(
        call: Call,
        rom: &'a Rom,
        image: &Image,
        length: u64,
        room: usize,
        rng: &mut Rng,
    ) -> Self {
        Running {
            call,
            rom,
            length,
            rows: Lent::rows(&rom.rows),
            cursor: Lent::new(image, |_| rng.doubleword()),
            records: Lent::buffer(room, rng),
        }
    }

    pub fn image(&self) -> Image {
        self.cursor.words().try_into().expect("a cursor's words")
    }

    /// The number of the refusal, or 0.
    pub fn refusal(&self) -> u64 {
        let room = self.records.words().len();
        refusal(self.call, self.rom, &self.image(), self.length, room)
    }
}

impl Lend for Running<'_> {
    fn library(&mut self) -> u64 {
        let run = match self.call {
            Call::Segment => words::segment,
            Call::Padding => words::padding,
        };
        let image = image_mut(&mut self.cursor);
        let records = self.records.words_mut();
        run(self.rows.words(), image, self.length, records)
    }

    fn model(&mut self) -> u64 {
        let answer = self.refusal();
        if answer == 0 {
            let program = self.rom.program.as_ref().expect("accepted rows");
            let mut cursor = cursor_of(&self.image());
            let log = run_reference(self.call, program, &mut cursor, self.length as usize);
            write_log(&log, self.records.words_mut());
            *image_mut(&mut self.cursor) = image_of(&cursor);
        }
        answer
    }

    fn compare(&self, wanted: &Self) -> Result<(), String> {
        self.rows.compare(&wanted.rows, "rows")?;
        self.cursor.compare(&wanted.cursor, "cursor")?;
        self.records.compare(&wanted.records, "records")
    }

    fn about(&self) -> String {
        let (rows, room) = (self.rows.words().len(), self.records.words().len());
        format!("{rows} rows, length {}, room {room}", self.length)
    }
}

pub fn image_mut(cursor: &mut Lent<u64>) -> &mut Image {
    cursor.words_mut().try_into().expect("a cursor's words")
}
