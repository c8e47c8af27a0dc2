//! What the tests of both example programs share.

use std::env;
use std::ffi::OsStr;
use std::fs;
use std::path::{Path, PathBuf};
use std::process::Command;

const README: &str = include_str!("../../../README.md");

pub const DISC_SIZE: usize = 1_572_864;

/// An example that was built with these tests.
fn program(name: &str) -> PathBuf {
    let test = env::current_exe().expect("a test has a path");
    let folder = test.parent().and_then(Path::parent).expect("two folders");
    folder.join("examples").join(name)
}

/// An empty folder of a test's own.
pub fn folder(name: &str) -> PathBuf {
    let folder = Path::new(env!("CARGO_TARGET_TMPDIR")).join(name);
    if folder.exists() {
        fs::remove_dir_all(&folder).unwrap();
    }
    fs::create_dir_all(&folder).unwrap();
    folder
}

/// Runs an example: the exit status and all that was printed.
pub fn run(name: &str, arguments: &[&OsStr]) -> (Option<i32>, String) {
    let output = Command::new(program(name)).args(arguments).output();
    let output = output.expect("the example was built");
    let text = [output.stdout, output.stderr].concat();
    (output.status.code(), String::from_utf8(text).unwrap())
}

/// The arguments that README hands an example, and the lines that it shows as
/// printed.
pub fn readme_line(name: &str) -> (&'static str, String) {
    let option = format!(" --example {name} ");
    let mut lines = README.lines().skip_while(|line| !line.contains(&option));
    let typed = lines.next().expect("README has the line");
    let (_, arguments) = typed.split_once(&option).expect("it has the option");
    let printed = lines.map_while(|line| line.strip_prefix("    "));
    (arguments, printed.map(|line| format!("{line}\n")).collect())
}

/// Map B and an image for it.
pub fn make_disc(folder: &Path) -> (PathBuf, PathBuf) {
    let disc = format!("DISC={}", folder.display());
    let made = Command::new("make")
        .args(["-C", "..", "disc", &disc])
        .output();
    assert!(made.expect("make is there").status.success());
    (folder.join("b.map"), folder.join("b.image"))
}
