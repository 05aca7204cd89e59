//! What the examples share: their arguments, their buffers and their complaints.

use magnetar_cpu::RECORD_WORDS;
use std::error::Error;
use std::fs;
use std::process::ExitCode;

pub type Outcome<T> = Result<T, Box<dyn Error>>;

/// The status of a program with that name, which says what was wrong.
pub fn exit(name: &str, outcome: Outcome<()>) -> ExitCode {
    match outcome {
        Ok(()) => ExitCode::SUCCESS,
        Err(error) => {
            eprintln!("{name}: {error}");
            ExitCode::FAILURE
        }
    }
}

/// The RV64I words of a file, four bytes each, the lowest first.
pub fn read_program(path: &str) -> Outcome<Vec<u32>> {
    let bytes = fs::read(path).map_err(|error| format!("{path}: {error}"))?;
    let words = bytes.chunks_exact(4);
    if !words.remainder().is_empty() {
        return Err(format!("{path}: the length is no multiple of 4").into());
    }
    let word = |bytes: &[u8]| u32::from_le_bytes(bytes.try_into().expect("four bytes"));
    Ok(words.map(word).collect())
}

/// A number of 64 bits, decimal or with 0x.
pub fn number(text: &str) -> Outcome<u64> {
    let number = match text.strip_prefix("0x") {
        Some(digits) => u64::from_str_radix(digits, 16),
        None => text.parse(),
    };
    Ok(number.map_err(|error| format!("'{text}': {error}"))?)
}

pub fn numbers(texts: &[String]) -> Outcome<Vec<u64>> {
    texts.iter().map(|text| number(text)).collect()
}

/// The words of that many records. It is an error if there is no memory for them.
pub fn record_buffer(records: u64) -> Outcome<Vec<u64>> {
    let words = usize::try_from(records)?.saturating_mul(RECORD_WORDS);
    let mut buffer = Vec::new();
    buffer.try_reserve_exact(words)?;
    buffer.resize(words, 0);
    Ok(buffer)
}
