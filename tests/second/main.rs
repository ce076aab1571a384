//! The second program: replays run files, makes them, and compares another
//! program with itself. It is written from the rules alone and shares no code.

mod bits;
mod cases;
mod compare;
mod coverage;
mod damage;
mod examples;
mod fair;
mod file;
mod frame;
mod host;
mod noise;
mod pile;
mod promises;
mod refusal;
mod replay;
mod rng;
mod steer;
mod sweeps;
mod table;
mod tables;
mod world;

use std::fs::File;
use std::io::{self, BufReader, BufWriter, Write};
use std::ops::Range;
use std::path::Path;
use std::process::ExitCode;

const USAGE: &str = "usage:
  second replay FILE                               print what a run file says (- is standard input)
  second make CASE                                 the run file of a numbered case
  second compare FIRST COUNT KEEPDIR PROGRAM [ARG..]  compare on numbered cases
  second files DIR PROGRAM [ARG..]                 compare on the stored files of a folder
  second catch FIRST COUNT PROGRAM [ARG..]         count the cases on which a program differs
  second promises FIRST COUNT                      check the cases with at most t liars
  second example NAME                              the run file of a named example
  second examples                                  the names of the examples
  second words                                     how the 65,536 words unpack, in numbers
  second unpack                                    how each word unpacks
  second sizes N T                                 the thresholds of n and t";

/// Why a command did not succeed.
enum Failure {
    Usage(String),
    Io(String),
    Disagreement,
}

impl From<io::Error> for Failure {
    fn from(error: io::Error) -> Failure {
        Failure::Io(error.to_string())
    }
}

fn main() -> ExitCode {
    let arguments: Option<Vec<String>> = std::env::args_os()
        .skip(1)
        .map(|word| word.into_string().ok())
        .collect();
    let outcome = match arguments {
        Some(arguments) => obey(&arguments),
        None => Err(Failure::Usage("an argument is no text".to_string())),
    };
    match outcome {
        Ok(()) => ExitCode::SUCCESS,
        Err(Failure::Disagreement) => ExitCode::from(1),
        Err(Failure::Io(text)) => {
            eprintln!("second: {text}");
            ExitCode::from(1)
        }
        Err(Failure::Usage(text)) => {
            eprintln!("second: {text}\n{USAGE}");
            ExitCode::from(2)
        }
    }
}

fn obey(arguments: &[String]) -> Result<(), Failure> {
    let words: Vec<&str> = arguments.iter().map(String::as_str).collect();
    match words[..] {
        ["replay", file] => replay_file(file),
        ["make", case] => print_bytes(&cases::make(number(case)?).bytes),
        ["compare", first, count, dir, _, ..] => {
            let (numbers, program) = (range(first, count)?, &arguments[4..]);
            agreeing(|output| compare::compare(output, numbers, Path::new(dir), program))
        }
        ["files", dir, _, ..] => {
            agreeing(|output| compare::files(output, Path::new(dir), &arguments[2..]))
        }
        ["catch", first, count, _, ..] => {
            let (numbers, program) = (range(first, count)?, &arguments[3..]);
            agreeing(|output| compare::catch(output, numbers, program))
        }
        ["promises", first, count] => {
            let numbers = range(first, count)?;
            agreeing(|output| promises::check(output, numbers))
        }
        ["example", name] => match examples::make(name) {
            Some(bytes) => print_bytes(&bytes),
            None => Err(Failure::Usage(format!("no example is called {name}"))),
        },
        ["examples"] => print_bytes((examples::names().join("\n") + "\n").as_bytes()),
        ["words"] => printing(tables::words),
        ["unpack"] => printing(tables::unpack),
        ["sizes", n, t] => {
            let (n, t) = (number(n)?, number(t)?);
            printing(|output| tables::sizes(output, n, t))
        }
        [] => Err(Failure::Usage("no command".to_string())),
        [command, ..] => Err(Failure::Usage(format!(
            "no such command, or wrong arguments: {command}"
        ))),
    }
}

fn number(word: &str) -> Result<u64, Failure> {
    word.parse()
        .map_err(|_| Failure::Usage(format!("not a number: {word}")))
}

/// The case numbers from FIRST, COUNT of them; a comparison of none is an error.
fn range(first: &str, count: &str) -> Result<Range<u64>, Failure> {
    let (first, count) = (number(first)?, number(count)?);
    if count == 0 {
        return Err(Failure::Usage(
            "COUNT is 0: no case would be run".to_string(),
        ));
    }
    match first.checked_add(count) {
        Some(end) => Ok(first..end),
        None => Err(Failure::Usage("the case numbers are too large".to_string())),
    }
}

fn replay_file(file: &str) -> Result<(), Failure> {
    let mut coverage = coverage::Coverage::default();
    if file == "-" {
        let mut input = BufReader::new(io::stdin().lock());
        return printing(|output| replay::replay(&mut input, output, &mut coverage));
    }
    let opened = File::open(file).map_err(|error| Failure::Io(format!("{file}: {error}")))?;
    let mut input = BufReader::new(opened);
    printing(|output| replay::replay(&mut input, output, &mut coverage))
}

fn print_bytes(bytes: &[u8]) -> Result<(), Failure> {
    printing(|output| output.write_all(bytes))
}

type Output = BufWriter<io::StdoutLock<'static>>;

/// Lets something print; what it answers is handed on.
fn printing<T>(print: impl FnOnce(&mut Output) -> io::Result<T>) -> Result<T, Failure> {
    let mut output = BufWriter::new(io::stdout().lock());
    let answer = print(&mut output)?;
    output.flush()?;
    Ok(answer)
}

/// Lets a comparison print; it fails unless everything agreed.
fn agreeing(compare: impl FnOnce(&mut Output) -> io::Result<bool>) -> Result<(), Failure> {
    if printing(compare)? {
        Ok(())
    } else {
        Err(Failure::Disagreement)
    }
}
