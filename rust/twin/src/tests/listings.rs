//! The inputs and outputs that the gate runs the program `bindlist` with.

use std::fs;
use std::path::Path;

use super::*;

#[test]
fn what_the_program_is_to_print() {
    let crates = Path::new(env!("CARGO_MANIFEST_DIR")).join("../../crates");
    let mut compared = 0;
    for entry in fs::read_dir(crates).unwrap() {
        let entry = entry.unwrap();
        let name = entry.file_name().into_string().unwrap();
        if name.starts_with("bindlist") {
            let input = fs::read(entry.path().join("stdin")).unwrap();
            let output = fs::read_to_string(entry.path().join("stdout")).unwrap();
            assert_eq!(listing(&input), output, "{}", name);
            compared += 1;
        }
    }
    assert_ne!(compared, 0);
}
