//! Compiles programs in C and C++ against the header and the archive, and runs them.

use std::fs;
use std::path::{Path, PathBuf};
use std::process::{Command, Output};

/// A compiler, and what it is told of the language. Each program here is valid in both.
pub const LANGUAGES: [(&str, &[&str]); 2] =
    [("cc", &["-std=c99", "-pedantic", "-x", "c"]), ("c++", &["-std=c++11", "-pedantic", "-x", "c++"])];

/// The package's folder.
pub fn package() -> &'static Path {
    Path::new(env!("CARGO_MANIFEST_DIR"))
}

/// What a compiler makes of files of this folder, and where it would put the program.
fn outcome(name: &str, compiler: &str, options: &[&str], files: &[&str]) -> (Output, PathBuf) {
    let folder = Path::new(env!("CARGO_TARGET_TMPDIR")).join("c");
    fs::create_dir_all(&folder).expect("the folder for programs can be made");
    let program = folder.join(name);
    let mut command = Command::new(compiler);
    command.args(options).args(["-Wall", "-Wextra", "-Werror", "-I"]).arg(package().join("include"));
    command.args(files.iter().map(|file| package().join("tests/c").join(file)));
    // The archive is no source in the language that was named.
    command.args(["-x", "none"]).arg(env!("DEGVUUREL_ARCHIVE")).arg("-o").arg(&program);
    let output = command.output().unwrap_or_else(|error| panic!("'{compiler}' cannot be run, and the tests need it: {error}"));
    (output, program)
}

/// Compiles files of this folder into a program of that name. A compiler that is missing, or a warning, fails the test.
pub fn compiled(name: &str, compiler: &str, options: &[&str], files: &[&str]) -> PathBuf {
    let (output, program) = outcome(name, compiler, options, files);
    assert!(output.status.success(), "{compiler} refuses {files:?}:\n{}", String::from_utf8_lossy(&output.stderr));
    program
}

/// What a compiler says of files that it must refuse.
#[allow(dead_code)] // not every test has such files
pub fn refused(compiler: &str, options: &[&str], files: &[&str]) -> String {
    let (output, _) = outcome("refused", compiler, options, files);
    assert!(!output.status.success(), "{compiler} takes {files:?} with {options:?}");
    String::from_utf8_lossy(&output.stderr).into_owned()
}

/// What a program writes, which ends well and has nothing to say on standard error.
pub fn written_by(program: &Path) -> String {
    let Output { status, stdout, stderr } = Command::new(program).output().expect("the program can be run");
    assert!(
        stderr.is_empty() && status.success(),
        "{} ends with {status}:\n{}",
        program.display(),
        String::from_utf8_lossy(&stderr)
    );
    String::from_utf8(stdout).expect("the program writes plain text")
}
