//! Copies the source as it lies.

#[path = "../source/build/copy.rs"]
mod copy;

fn main() {
    copy::make(|_| Ok(()));
}
