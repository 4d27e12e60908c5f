//! The C program over the header and the same library, compiled and run.

use std::path::Path;
use std::process::Command;

const WANTED: &str = "\
three days: a limit of 693 units
a byte short: out of range
no day: out of range
a day too large: out of range
some units: a charge of 1234000 paise
the largest: a charge of 10000000 paise
no quantity: out of range
";

#[test]
fn the_c_program_answers() {
    let sources = Path::new(env!("CARGO_MANIFEST_DIR")).join("../c");
    let program = Path::new(env!("CARGO_TARGET_TMPDIR")).join("example");
    let compiled = Command::new(std::env::var("CC").unwrap_or_else(|_| "cc".into()))
        .args(["-std=c11", "-Wall", "-Wextra", "-Werror", "-pedantic", "-o"])
        .arg(&program)
        .arg(sources.join("example.c"))
        .arg(env!("FUTEQ_LIBRARY"))
        .status()
        .expect("a C compiler, cc or $CC, starts");
    assert!(
        compiled.success(),
        "the C program does not compile: {compiled}"
    );
    let ran = Command::new(&program)
        .output()
        .expect("the C program starts");
    assert!(ran.status.success(), "the C program fails: {}", ran.status);
    assert_eq!(String::from_utf8_lossy(&ran.stdout), WANTED);
}
