//! Runs the programs in C that print where numbers stand.

use std::env;
use std::path::Path;
use std::process::Command;

/// A part of what is laid out: its name, where it begins, how much it has.
pub type Part = (String, usize, usize);

/// Compiles `c/NAME.c` by the compiler of `CC`, or else `cc`, and runs it; gives
/// the lines that it prints.
pub fn parts_in_c(name: &str) -> Vec<Part> {
    let compiler = env::var("CC").unwrap_or_else(|_| "cc".to_string());
    let mut words = compiler.split_whitespace();
    let folder = Path::new(env!("CARGO_MANIFEST_DIR")).join("../../c");
    let source = folder.join(format!("{name}.c"));
    let program = Path::new(env!("CARGO_TARGET_TMPDIR")).join(name);
    run(Command::new(words.next().expect("CC names a compiler"))
        .args(words)
        .args(["-std=c11", "-Wall", "-Wextra", "-Werror", "-o"])
        .args([&program, &source]));
    run(&mut Command::new(program)).lines().map(part).collect()
}

/// Runs a command that must succeed; gives what it prints.
fn run(command: &mut Command) -> String {
    let output = command
        .output()
        .unwrap_or_else(|error| panic!("{command:?}: {error}"));
    let told = String::from_utf8_lossy(&output.stderr);
    assert!(output.status.success(), "{command:?}: {told}");
    String::from_utf8(output.stdout).expect("the program prints text")
}

/// Reads a line of a name and two numbers.
fn part(line: &str) -> Part {
    let parts: Vec<&str> = line.split(' ').collect();
    let [name, first, count] = parts[..] else {
        panic!("not a name and two numbers: {line}");
    };
    let number = |text: &str| text.parse().expect("a number");
    (name.to_string(), number(first), number(count))
}
