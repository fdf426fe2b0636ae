//! The independent test program. It is written from document 01 and the requests of document 02 that
//! have landed (requests 1, 2, 4, 6, 7 and 8), and shares nothing with the crates: it makes batches of
//! calls for the program `trials` and inputs for the program `otzarvim`, and says what each must answer.

mod answer;
mod batch;
mod build;
mod bytes;
mod claims;
mod known;
mod message;
mod offsets;
mod program;
mod random;
mod refusal;
mod rounds;
mod sat;
mod search;
mod selftest;
mod tally;
mod text;
mod verdict;

use std::io::{self, Read, Write};
use std::process::ExitCode;

const USAGE: &str = "usage:
  independent make SEED CALLS OUT_STDIN OUT_STDOUT [LETTERS]
      writes a batch of CALLS calls and the lines that `trials` must answer. LETTERS are those of
      the calls to use, GMFTRVSCWN unless given; with a `?` among them, a call that ends the run is last
  independent ends FOLDER
      writes batches that end in a call which is none, as N.stdin and N.stdout with N from 1
  independent program SEED CASES FOLDER
      writes CASES inputs for `otzarvim` and what it must write, as N.stdin and N.stdout with N from 1
  independent output
      reads an input from standard input and writes what `otzarvim` must write
  independent show-input
      reads an input from standard input and shows it, and what `otzarvim` must write
  independent answer
      reads a batch from standard input and writes the lines that `trials` must answer
  independent show LINE
      reads a batch from standard input and shows the call that line LINE answers
  independent self-test [SEED]
      tries this program against document 01's known graphs and against itself";

fn main() -> ExitCode {
    let words: Vec<String> = std::env::args().skip(1).collect();
    let words: Vec<&str> = words.iter().map(String::as_str).collect();
    let done = match words.as_slice() {
        ["make", seed, calls, stdin, stdout] => make(seed, calls, stdin, stdout, answer::LETTERS),
        ["make", seed, calls, stdin, stdout, letters] => make(seed, calls, stdin, stdout, letters),
        ["ends", folder] => ends(folder),
        ["program", seed, cases, folder] => program(seed, cases, folder),
        ["output"] => output(),
        ["show-input"] => show_input(),
        ["answer"] => answer(),
        ["show", line] => show(line),
        ["self-test"] => self_test("1"),
        ["self-test", seed] => self_test(seed),
        _ => Err(USAGE.to_string()),
    };
    match done {
        Ok(()) => ExitCode::SUCCESS,
        Err(message) => {
            eprintln!("{message}");
            ExitCode::FAILURE
        }
    }
}

fn decimal<T: std::str::FromStr>(word: &str) -> Result<T, String> {
    word.parse().map_err(|_| format!("not a number: {word}"))
}

fn make(seed: &str, calls: &str, stdin: &str, stdout: &str, letters: &str) -> Result<(), String> {
    if letters.is_empty()
        || letters
            .chars()
            .any(|letter| letter != '?' && !answer::LETTERS.contains(letter))
    {
        return Err(format!(
            "letters are some of {}? and not {letters}",
            answer::LETTERS
        ));
    }
    let (input, lines) = batch::make(decimal(seed)?, decimal(calls)?, letters);
    write(stdin, &input)?;
    write(stdout, lines.as_bytes())?;
    println!(
        "{} calls, {} bytes, {} bytes of lines",
        lines.lines().count(),
        input.len(),
        lines.len()
    );
    Ok(())
}

fn ends(folder: &str) -> Result<(), String> {
    let batches = batch::ends::batches();
    for (index, (input, lines)) in batches.iter().enumerate() {
        write_case(folder, index, input, lines)?;
    }
    println!("{} batches", batches.len());
    Ok(())
}

fn program(seed: &str, cases: &str, folder: &str) -> Result<(), String> {
    let inputs = batch::inputs::make(decimal(seed)?, decimal(cases)?);
    let mut refused = 0;
    for (index, input) in inputs.iter().enumerate() {
        let expected = program::output(input);
        refused += usize::from(expected.fault.is_some());
        write_case(folder, index, input, &expected.lines)?;
    }
    println!("{} inputs, {refused} of them to be refused", inputs.len());
    Ok(())
}

fn write_case(folder: &str, index: usize, input: &[u8], lines: &str) -> Result<(), String> {
    let name = format!("{folder}/{}", index + 1);
    write(&format!("{name}.stdin"), input)?;
    write(&format!("{name}.stdout"), lines.as_bytes())
}

fn write(path: &str, bytes: &[u8]) -> Result<(), String> {
    std::fs::write(path, bytes).map_err(|error| format!("{path}: {error}"))
}

fn read_input() -> Result<Vec<u8>, String> {
    let mut input = vec![];
    io::stdin()
        .read_to_end(&mut input)
        .map_err(|error| error.to_string())?;
    Ok(input)
}

fn say(lines: &str) -> Result<(), String> {
    io::stdout()
        .write_all(lines.as_bytes())
        .map_err(|error| error.to_string())
}

fn answer() -> Result<(), String> {
    say(&answer::answer_batch(&read_input()?))
}

fn output() -> Result<(), String> {
    say(&program::output(&read_input()?).lines)
}

fn show_input() -> Result<(), String> {
    say(&program::shown(&read_input()?))
}

fn show(line: &str) -> Result<(), String> {
    let line: usize = decimal(line)?;
    let input = read_input()?;
    let call = line
        .checked_sub(1)
        .and_then(|index| answer::calls(&input).nth(index));
    match call {
        Some(Ok(call)) => println!("{}", answer::shown(&call)),
        Some(Err(letter)) => println!("no call, letter {letter}"),
        None => return Err(format!("the batch has no line {line}")),
    }
    Ok(())
}

fn self_test(seed: &str) -> Result<(), String> {
    selftest::run(decimal(seed)?);
    Ok(())
}
