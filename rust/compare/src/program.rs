//! Running a program of the port.

use std::{
    io::{self, Write},
    process::{Command, Stdio},
    thread,
};

/// What a program prints when it is given some input. A last line says so where
/// the program fails.
pub fn output(program: &mut Command, input: Vec<u8>) -> io::Result<String> {
    let mut child = program
        .stdin(Stdio::piped())
        .stdout(Stdio::piped())
        .spawn()?;
    let mut stdin = child.stdin.take().expect("standard input is piped");
    // Written beside the reading: the program may print before it has read everything. One that
    // stops reading early is judged by its lines.
    let writer = thread::spawn(move || drop(stdin.write_all(&input)));
    let output = child.wait_with_output()?;
    writer.join().expect("the writer does not panic");
    let mut text = String::from_utf8_lossy(&output.stdout).into_owned();
    if !output.status.success() {
        if !text.is_empty() && !text.ends_with('\n') {
            text.push('\n');
        }
        text += &format!("ended with {}\n", output.status);
    }
    Ok(text)
}
