//! Drives boa_engine's shapes by lines from standard input. See README.md.

mod calls;
mod image;
mod line;
mod object;
mod property;
mod refusal;
mod run;

// The shape files know it by this path.
pub(crate) use object::JsObject;

use std::{
    env,
    io::{self, BufRead, BufWriter, stdin, stdout},
    process::ExitCode,
};

use run::{Next, Options, Run};

const USAGE: &str = "usage: oracle --free-at-once|--free-at-sweep [--catch|--brief]  < lines";

const EXIT_LOOKUP_DISAGREES: u8 = 1;
const EXIT_NOT_RUN: u8 = 2;
const EXIT_PANIC_CAUGHT: u8 = 3;

fn main() -> ExitCode {
    let options: Vec<String> = env::args().skip(1).collect();
    let options: Vec<&str> = options.iter().map(String::as_str).collect();
    let (collector, rest) = options.split_first().unwrap_or((&"", &[]));
    let (catch, brief) = match rest {
        [] => (false, false),
        ["--catch"] => (true, false),
        ["--brief"] => (false, true),
        _ => return usage(),
    };
    match *collector {
        "--free-at-once" => {}
        "--free-at-sweep" => boa_gc::kept::free_at_sweep(),
        _ => return usage(),
    }
    run(Options { catch, brief }).unwrap_or_else(|error| {
        eprintln!("oracle: {error}");
        ExitCode::from(EXIT_NOT_RUN)
    })
}

fn usage() -> ExitCode {
    eprintln!("{USAGE}");
    ExitCode::from(EXIT_NOT_RUN)
}

fn run(options: Options) -> io::Result<ExitCode> {
    let mut input = stdin().lock();
    let mut run = Run::new(BufWriter::new(stdout().lock()), options);
    let mut line = Vec::new();
    while input.read_until(b'\n', &mut line)? > 0 {
        if run.answer(&line)? == Next::Panicked {
            // A shape may have been left half changed.
            return Ok(ExitCode::from(EXIT_PANIC_CAUGHT));
        }
        line.clear();
    }
    run.finish()?;
    Ok(if run.lookups_agree {
        ExitCode::SUCCESS
    } else {
        ExitCode::from(EXIT_LOOKUP_DISAGREES)
    })
}
