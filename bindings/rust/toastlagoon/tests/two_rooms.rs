//! The two rooms of examples/two_rooms print what stands beside the program.

use std::path::Path;
use std::process::Command;
use std::{env, fs};

#[test]
fn boards_are_equal() {
    let folder = Path::new(concat!(env!("CARGO_MANIFEST_DIR"), "/../../../examples/two_rooms"));
    let test = env::current_exe().unwrap();
    let program = test.ancestors().nth(2).unwrap().join("examples/two_rooms");
    let output = Command::new(program).output().unwrap();
    assert_eq!(String::from_utf8_lossy(&output.stdout), fs::read_to_string(folder.join("expected")).unwrap());
    assert!(output.status.success());
}
