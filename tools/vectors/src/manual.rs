//! The lists of cases about the manual: those on which the recorder does what the
//! RISC-V manual says, with the answers of qemu, and those on which it does not.

mod agreeing;
mod case;
mod damage;
mod differing;
mod line;
mod qemu;
#[cfg(test)]
mod told;

pub use agreeing::listing as agreeing_listing;
pub use damage::listing as damaged_listing;
pub use differing::listing as differing_listing;
pub use line::MANUAL;

/// A list of the repository. It is there where qemu is not.
#[cfg(test)]
pub fn stored(name: &str) -> String {
    let data = concat!(
        env!("CARGO_MANIFEST_DIR"),
        "/../../crates/manual_vectors/data"
    );
    let path = std::path::Path::new(data).join(name);
    std::fs::read_to_string(&path).unwrap_or_else(|error| panic!("{}: {error}", path.display()))
}
