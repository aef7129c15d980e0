//! Runs the examples that cargo has built beside the tests.

use std::io::Write;
use std::path::PathBuf;
use std::process::{Command, Output, Stdio};

/// The program of an example. Tests stand in target/PROFILE/deps, examples in target/PROFILE/examples.
fn program(name: &str) -> PathBuf {
    let test = std::env::current_exe().expect("a test knows its own name");
    let folder = test.parent().and_then(|deps| deps.parent()).expect("tests stand in a folder of the target");
    let program = folder.join("examples").join(name);
    assert!(program.exists(), "the example {name} is not built: 'cargo test' builds it, 'cargo test --test' does not");
    program
}

/// What an example writes, which ends well and has nothing to complain of.
pub fn written(name: &str) -> String {
    written_on(name, "")
}

/// What an example writes where this is typed.
pub fn written_on(name: &str, typed: &str) -> String {
    let mut running = Command::new(program(name))
        .stdin(Stdio::piped())
        .stdout(Stdio::piped())
        .stderr(Stdio::piped())
        .spawn()
        .expect("it can be run");
    running.stdin.take().expect("it is typed to").write_all(typed.as_bytes()).expect("it reads what is typed");
    let Output { status, stdout, stderr } = running.wait_with_output().expect("the example ends");
    assert!(status.success() && stderr.is_empty(), "{name} ends with {status}:\n{}", String::from_utf8_lossy(&stderr));
    String::from_utf8(stdout).expect("it writes plain text")
}
