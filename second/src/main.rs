//! The commands of `second`.

use second::answers;
use second::comparing::{self, Comparison, Stream};
use second::dump::LONGEST_DUMP;
use second::layout::Layouts;
use second::listing;
use second::protocol::Limits;
use second::sample;
use second::stream;
use second::values;
use std::env;
use std::fs;
use std::io::{self, BufReader, BufWriter, Read, Write};
use std::process::ExitCode;

const USAGE: &str = "usage:
  second answers                   answer the stream of calls on standard input
  second stream SEED CALLS         make a seeded stream of calls
  second compare STREAM ANSWERS    compare answers to a stream with those given here
  second fieldlist [--new]         list the dump on standard input, an old or a new one
  second values                    print the paper's figures as the conditions give them
  second triangle                  print the binomials C(n, k), rows 0 to 60
  second sample [--new]            make the sample dump, the old or the new one
With --large behind their name, answers, stream and compare go by the larger limits.
";

enum Command {
    Answers(Limits),
    Stream(Limits, Made),
    Compare(Limits, Compared),
    FieldList(Kind),
    Values,
    Triangle,
    Sample(Kind),
}

/// Which of the two kinds of dump.
enum Kind {
    Old,
    New,
}

struct Made {
    seed: u64,
    calls: u64,
}

/// The names of two files.
struct Compared {
    stream: String,
    answers: String,
}

fn main() -> ExitCode {
    let arguments: Vec<String> = env::args().skip(1).collect();
    let words: Vec<&str> = arguments.iter().map(String::as_str).collect();
    let command = match command_of(&words) {
        Some(command) => command,
        None => {
            eprint!("{}", USAGE);
            return ExitCode::from(2);
        }
    };
    match run(command) {
        Ok(code) => code,
        Err(error) => {
            eprintln!("second: {}", error);
            ExitCode::from(2)
        }
    }
}

fn command_of(words: &[&str]) -> Option<Command> {
    match words {
        ["answers", rest @ ..] => match limits_before(rest) {
            (limits, []) => Some(Command::Answers(limits)),
            _ => None,
        },
        ["stream", rest @ ..] => match limits_before(rest) {
            (limits, [seed, calls]) => {
                let (seed, calls) = (seed.parse().ok()?, calls.parse().ok()?);
                Some(Command::Stream(limits, Made { seed, calls }))
            }
            _ => None,
        },
        ["compare", rest @ ..] => match limits_before(rest) {
            (limits, [stream, answers]) => {
                let (stream, answers) = (stream.to_string(), answers.to_string());
                Some(Command::Compare(limits, Compared { stream, answers }))
            }
            _ => None,
        },
        ["fieldlist"] => Some(Command::FieldList(Kind::Old)),
        ["fieldlist", "--new"] => Some(Command::FieldList(Kind::New)),
        ["values"] => Some(Command::Values),
        ["triangle"] => Some(Command::Triangle),
        ["sample"] => Some(Command::Sample(Kind::Old)),
        ["sample", "--new"] => Some(Command::Sample(Kind::New)),
        _ => None,
    }
}

/// The limits that a command goes by, and the words behind them.
fn limits_before<'words>(words: &'words [&'words str]) -> (Limits, &'words [&'words str]) {
    match words {
        ["--large", rest @ ..] => (Limits::LARGE, rest),
        _ => (Limits::USUAL, words),
    }
}

fn run(command: Command) -> io::Result<ExitCode> {
    let mut printed = BufWriter::new(io::stdout());
    let code = match command {
        Command::Answers(limits) => {
            answers::answer_stream(&mut BufReader::new(io::stdin()), limits, &mut printed)?;
            ExitCode::SUCCESS
        }
        Command::Stream(limits, made) => {
            stream::write_stream(made.seed, made.calls, limits, &mut printed)?;
            ExitCode::SUCCESS
        }
        Command::Compare(limits, compared) => compare(limits, &compared, &mut printed)?,
        Command::FieldList(kind) => {
            printed.write_all(listed(kind, &dump_from_input()?).as_bytes())?;
            ExitCode::SUCCESS
        }
        Command::Values => {
            printed.write_all(values::figures(&mut Layouts::default()).as_bytes())?;
            ExitCode::SUCCESS
        }
        Command::Triangle => {
            printed.write_all(values::triangle().as_bytes())?;
            ExitCode::SUCCESS
        }
        Command::Sample(kind) => {
            printed.write_all(&sample_of(kind)?)?;
            ExitCode::SUCCESS
        }
    };
    printed.flush()?;
    Ok(code)
}

fn listed(kind: Kind, dump: &[u8]) -> String {
    let layouts = &mut Layouts::default();
    match kind {
        Kind::Old => listing::fieldlist(dump, layouts),
        Kind::New => listing::fieldlist_new(dump, layouts),
    }
}

fn sample_of(kind: Kind) -> io::Result<Vec<u8>> {
    let layouts = &mut Layouts::default();
    let sample = match kind {
        Kind::Old => sample::sample_dump(layouts),
        Kind::New => sample::sample_new_dump(layouts),
    };
    sample.map_err(|refusal| {
        let told = format!("refusal {}", refusal.number());
        io::Error::new(io::ErrorKind::Other, told)
    })
}

fn compare(limits: Limits, files: &Compared, printed: &mut impl Write) -> io::Result<ExitCode> {
    let stream = Stream {
        name: &files.stream,
        bytes: &bytes_of(&files.stream)?,
        limits,
    };
    match comparing::compare(&stream, &bytes_of(&files.answers)?)? {
        Comparison::Agree { calls } => {
            writeln!(printed, "{} calls agree", calls)?;
            Ok(ExitCode::SUCCESS)
        }
        Comparison::Differ { report } => {
            printed.write_all(report.as_bytes())?;
            Ok(ExitCode::from(1))
        }
    }
}

fn bytes_of(file: &str) -> io::Result<Vec<u8>> {
    fs::read(file).map_err(|error| io::Error::new(error.kind(), format!("{}: {}", file, error)))
}

/// One byte more than a dump may have is enough to refuse it.
fn dump_from_input() -> io::Result<Vec<u8>> {
    let mut dump = Vec::new();
    let most = LONGEST_DUMP as u64 + 1;
    io::stdin().take(most).read_to_end(&mut dump)?;
    Ok(dump)
}
