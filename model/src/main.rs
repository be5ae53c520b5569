//! The command line of the model.

use std::env;
use std::fs::File;
use std::io::{self, BufReader, BufWriter, Write};
use std::path::Path;
use std::process::ExitCode;

use model::tally::Tally;
use model::trials::Op;
use model::{fixed, generate, play, trials};

const USAGE: &str = "usage:
  model answer TRIALS                  answer a trials file, one line a trial
  model play DIR                       play DIR/set.bin with DIR/turns.bin
  model generate SEED COUNT [OPS]      write a trials file (OPS: for example 1,2)
  model generate-plays SEED COUNT DIR  write play cases DIR/0, DIR/1, ...
  model fixed                          write the trials file of the fixed vectors
  model tally TRIALS                   count answers and phase transitions";

const BUFFER: usize = 1 << 16;

fn main() -> ExitCode {
    let arguments: Vec<String> = env::args().skip(1).collect();
    let arguments: Vec<&str> = arguments.iter().map(String::as_str).collect();
    match run(&arguments) {
        Ok(Some(code)) => code,
        Ok(None) => {
            eprintln!("{USAGE}");
            ExitCode::from(2)
        }
        Err(error) => {
            eprintln!("model: {error}");
            ExitCode::FAILURE
        }
    }
}

/// Nothing if the arguments are no command.
fn run(arguments: &[&str]) -> io::Result<Option<ExitCode>> {
    let mut out = BufWriter::with_capacity(BUFFER, io::stdout().lock());
    let done = match *arguments {
        ["answer", path] => Some(trials::answer_all(&mut open(path)?, &mut out)),
        ["play", folder] => {
            let text = play::play_folder(Path::new(folder));
            Some(out.write_all(text.as_bytes()))
        }
        ["generate", seed, count] => write_trials(seed, count, "1,2,3,4,5", &mut out),
        ["generate", seed, count, ops] => write_trials(seed, count, ops, &mut out),
        ["generate-plays", seed, count, folder] => numbers(seed, count)
            .map(|(seed, count)| generate::plays::write(seed, count, Path::new(folder))),
        ["fixed"] => Some(fixed::write(&mut out)),
        ["tally", path] => return tally(path, &mut out).map(Some),
        _ => None,
    };
    match done {
        Some(result) => result?,
        None => return Ok(None),
    }
    out.flush()?;
    Ok(Some(ExitCode::SUCCESS))
}

/// Fails if some answer or transition that must occur does not.
fn tally(path: &str, out: &mut impl Write) -> io::Result<ExitCode> {
    let tally = Tally::of(&mut open(path)?)?;
    tally.write(out)?;
    out.flush()?;
    Ok(if tally.is_complete() {
        ExitCode::SUCCESS
    } else {
        ExitCode::FAILURE
    })
}

fn write_trials(
    seed: &str,
    count: &str,
    ops: &str,
    out: &mut impl Write,
) -> Option<io::Result<()>> {
    let (seed, count) = numbers(seed, count)?;
    Some(generate::write_trials(seed, count, &ops_of(ops)?, out))
}

fn open(path: &str) -> io::Result<BufReader<File>> {
    Ok(BufReader::with_capacity(BUFFER, File::open(path)?))
}

fn numbers(seed: &str, count: &str) -> Option<(u64, u64)> {
    Some((seed.parse().ok()?, count.parse().ok()?))
}

fn ops_of(list: &str) -> Option<Vec<Op>> {
    list.split(',')
        .map(|number| Op::from_byte(number.parse().ok()?))
        .collect()
}
