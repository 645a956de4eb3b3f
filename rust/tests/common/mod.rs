//! The sample cards, and running programs over bytes.

#![allow(dead_code)]

use std::io::Write;
use std::path::{Path, PathBuf};
use std::process::{Command, Output, Stdio};

/// A path within the repository.
pub fn path(name: &str) -> PathBuf {
    Path::new(env!("CARGO_MANIFEST_DIR")).join("..").join(name)
}

pub fn sample(name: &str) -> Vec<u8> {
    let path = path("examples").join(name);
    std::fs::read(&path).unwrap_or_else(|error| panic!("{}: {error}", path.display()))
}

/// The sample cards that convert, without the ending of their names.
pub const SAMPLES: [&str; 4] = ["ada", "stevenson", "zoe", "kept"];

/// The sample cards that are refused, with number and place.
pub const REFUSED: [(&str, u8, usize); 9] = [
    ("refused/1-empty.vcf", 1, 0),
    ("refused/3-lines.vcf", 3, 0),
    ("refused/4-control.vcf", 4, 3),
    ("refused/5-no-colon.vcf", 5, 3),
    ("refused/6-version-3.vcf", 6, 0),
    ("refused/7-uid-parameter.vcf", 7, 2),
    ("refused/8-second-uid.vcf", 8, 4),
    ("refused/9-empty-uid.vcf", 9, 2),
    ("refused/10-no-fn.vcf", 10, 0),
];

/// The sample JSON that is refused, with number and place.
pub const REFUSED_JSON: [(&str, u8, usize); 4] = [
    ("refused/11-comma.json", 11, 43),
    ("refused/11-equal-names.json", 11, 0),
    ("refused/12-no-uid.json", 12, 0),
    ("refused/13-surnames.json", 13, 0),
];

/// Runs a program with these bytes on its standard input.
pub fn run(program: &mut Command, input: &[u8]) -> Output {
    let program = program
        .stdin(Stdio::piped())
        .stdout(Stdio::piped())
        .stderr(Stdio::piped());
    let mut child = program.spawn().expect("the program starts");
    let mut stdin = child.stdin.take().expect("it has a standard input");
    let input = input.to_vec();
    // a program that does not read all of it closes the pipe: no fault here
    let writer = std::thread::spawn(move || drop(stdin.write_all(&input)));
    let output = child.wait_with_output().expect("the program ends");
    writer.join().expect("the writer ends");
    output
}

pub fn text(bytes: &[u8]) -> String {
    String::from_utf8_lossy(bytes).into_owned()
}

/// Exit status, standard output, standard error of the command, in that folder.
pub fn typed_in(folder: &Path, words: &[&str], input: &[u8]) -> (i32, String, String) {
    let mut command = Command::new(env!("CARGO_BIN_EXE_thymebarrel"));
    let output = run(command.args(words).current_dir(folder), input);
    let status = output.status.code().expect("it was not killed");
    (status, text(&output.stdout), text(&output.stderr))
}

/// The same in examples/.
pub fn typed(words: &[&str], input: &[u8]) -> (i32, String, String) {
    typed_in(&path("examples"), words, input)
}

/// Gives this on standard output, and says nothing but that uids were made.
pub fn gives(words: &[&str], input: &[u8], stdout: &str) {
    let (status, got, stderr) = typed(words, input);
    assert_eq!((status, got.as_str()), (0, stdout), "{words:?}: {stderr}");
    let made = |line: &str| line.contains("made") || line.starts_with("  another run");
    assert!(stderr.lines().all(made), "{words:?}: {stderr}");
}

/// Ends with this status, writes nothing to standard output, and says this.
pub fn fails(words: &[&str], input: &[u8], status: i32, says: &str) {
    let (got, stdout, stderr) = typed(words, input);
    assert_eq!((got, stdout.as_str()), (status, ""), "{words:?}: {stderr}");
    assert!(stderr.starts_with("thymebarrel: "), "{words:?}: {stderr}");
    assert!(stderr.contains(says), "{words:?}: {stderr}");
}

/// An empty folder of that name for a test.
pub fn scratch(name: &str) -> PathBuf {
    let folder = PathBuf::from(env!("CARGO_TARGET_TMPDIR")).join(name);
    let _ = std::fs::remove_dir_all(&folder);
    std::fs::create_dir_all(&folder).expect("the folder is made");
    folder
}
