//! What is compiled is what lies in the directory of the source.

use std::fs;
use std::path::Path;

#[test]
fn the_copies_are_the_source_byte_for_byte() {
    for name in ["decode.rs", "expand.rs", "interp.rs"] {
        let read = |directory| fs::read(Path::new(directory).join(name)).expect("a file");
        let source = read(env!("SOURCE_DIRECTORY"));
        assert!(!source.is_empty());
        assert_eq!(read(env!("OUT_DIR")), source, "{name}");
    }
}
