//! Makes the reference: the source with the edits of the folder `edits`.

#[path = "build/copy.rs"]
mod copy;
#[path = "build/edit.rs"]
mod edit;

use std::path::Path;

const EDITS: &str = "edits";

fn main() {
    println!("cargo:rerun-if-changed={EDITS}");
    copy::make(|files| edit::apply_folder(Path::new(EDITS), files));
}
