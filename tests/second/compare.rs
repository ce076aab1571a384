//! Runs another program on the same files and compares what is printed.

use std::fs;
use std::io::{self, Write};
use std::ops::Range;
use std::path::{Path, PathBuf};
use std::process::{Command, Stdio};
use std::thread;

use crate::cases;
use crate::coverage::Coverage;
use crate::replay::replay_bytes;

/// What the other program printed, and how it failed if it did.
struct Answer {
    printed: Vec<u8>,
    failure: Option<String>,
}

/// Runs the program with the input on its standard input.
fn ask(program: &[String], input: &[u8]) -> Answer {
    match run(program, input) {
        Ok(answer) => answer,
        Err(error) => Answer {
            printed: Vec::new(),
            failure: Some(format!("could not be run: {error}")),
        },
    }
}

fn run(program: &[String], input: &[u8]) -> io::Result<Answer> {
    let mut child = Command::new(&program[0])
        .args(&program[1..])
        .stdin(Stdio::piped())
        .stdout(Stdio::piped())
        .spawn()?;
    let stdin = child.stdin.take();
    // Written from its own thread, so that neither side waits for the other.
    // A program that stops reading early is judged by what it prints.
    let output = thread::scope(|scope| {
        scope.spawn(move || stdin.map(|mut pipe| pipe.write_all(input)));
        child.wait_with_output()
    })?;
    let failure = (!output.status.success()).then(|| format!("ended with {}", output.status));
    Ok(Answer {
        printed: output.stdout,
        failure,
    })
}

/// Says how the answer differs from what was expected, if it does.
fn difference(expected: &[u8], answer: &Answer) -> Option<String> {
    if let Some(failure) = &answer.failure {
        return Some(format!("the program {failure}"));
    }
    if expected == answer.printed {
        return None;
    }
    let (ours, theirs) = (
        String::from_utf8_lossy(expected),
        String::from_utf8_lossy(&answer.printed),
    );
    let (mut our_lines, mut their_lines) = (ours.split('\n'), theirs.split('\n'));
    let mut number = 1;
    loop {
        let (our_line, their_line) = (our_lines.next(), their_lines.next());
        if our_line != their_line || our_line.is_none() {
            let shown =
                |line: Option<&str>| line.map_or("nothing".to_string(), |text| format!("'{text}'"));
            return Some(format!(
                "line {number}: second program {}, the program {}",
                shown(our_line),
                shown(their_line)
            ));
        }
        number += 1;
    }
}

/// Writes the input and both outputs of a case that differs.
fn keep(
    dir: &Path,
    number: u64,
    input: &[u8],
    expected: &[u8],
    answer: &Answer,
) -> io::Result<PathBuf> {
    fs::create_dir_all(dir)?;
    let path = dir.join(format!("case-{number}.run"));
    fs::write(&path, input)?;
    fs::write(path.with_extension("second"), expected)?;
    fs::write(path.with_extension("program"), &answer.printed)?;
    Ok(path)
}

/// Compares case by case and stops at the first that differs; true if none did.
pub fn compare(
    output: &mut impl Write,
    numbers: Range<u64>,
    dir: &Path,
    program: &[String],
) -> io::Result<bool> {
    let mut coverage = Coverage::default();
    for number in numbers.clone() {
        let case = cases::make(number);
        coverage.case(case.kind);
        let expected = replay_bytes(&case.bytes, &mut coverage);
        let answer = ask(program, &case.bytes);
        if let Some(difference) = difference(&expected, &answer) {
            let path = keep(dir, number, &case.bytes, &expected, &answer)?;
            writeln!(
                output,
                "case {number} ({}) differs, kept in {}",
                case.kind,
                path.display()
            )?;
            writeln!(output, "{difference}")?;
            return Ok(false);
        }
    }
    let count = numbers.end - numbers.start;
    writeln!(output, "compared {count} cases, all equal")?;
    writeln!(output, "{coverage}")?;
    Ok(true)
}

/// Counts the cases that tell a wrong program from this one; true if any does.
pub fn catch(output: &mut impl Write, numbers: Range<u64>, program: &[String]) -> io::Result<bool> {
    let mut first = None;
    let mut caught = 0;
    for number in numbers.clone() {
        let case = cases::make(number);
        let expected = replay_bytes(&case.bytes, &mut Coverage::default());
        if difference(&expected, &ask(program, &case.bytes)).is_some() {
            caught += 1;
            first = first.or(Some((number, case.kind)));
        }
    }
    let count = numbers.end - numbers.start;
    match first {
        None => writeln!(output, "none of {count} cases differs")?,
        Some((number, kind)) => writeln!(
            output,
            "{caught} of {count} cases differ, the first is case {number} ({kind})"
        )?,
    }
    Ok(caught > 0)
}

/// Compares the stored run files of a folder; true if there are some and all agree.
pub fn files(output: &mut impl Write, dir: &Path, program: &[String]) -> io::Result<bool> {
    let mut paths = Vec::new();
    let entries = fs::read_dir(dir)
        .map_err(|error| io::Error::new(error.kind(), format!("{}: {error}", dir.display())))?;
    for entry in entries {
        paths.push(entry?.path());
    }
    paths.retain(|path| path.extension().is_some_and(|extension| extension == "run"));
    paths.sort();
    let mut failed = 0;
    for path in &paths {
        if let Some(difference) = check_file(path, program)? {
            writeln!(output, "{}: {difference}", path.display())?;
            failed += 1;
        }
    }
    if paths.is_empty() {
        writeln!(output, "no run file in {}", dir.display())?;
    } else {
        writeln!(
            output,
            "compared {} run files, {failed} differ",
            paths.len()
        )?;
    }
    Ok(!paths.is_empty() && failed == 0)
}

fn check_file(path: &Path, program: &[String]) -> io::Result<Option<String>> {
    let input = fs::read(path)?;
    let Ok(stored) = fs::read(path.with_extension("out")) else {
        return Ok(Some("no stored output beside it".to_string()));
    };
    let expected = replay_bytes(&input, &mut Coverage::default());
    if stored != expected {
        return Ok(Some(
            "the stored output is not what the second program prints".to_string(),
        ));
    }
    Ok(difference(&expected, &ask(program, &input)))
}
