//! Decides whether steps match, by a program that shares no code with the proved crates and is not proved itself: what it
//! answers is compared with what they answer.
//!
//!     second instances SEED COUNT SIZE DENSITY    writes random instances of every kind, with at most SIZE branches a side
//!     second full SEED COUNT SIZE DENSITY         writes instances with SIZE branches a side and weights to 1,000,000
//!     second solve                                reads instances and writes a line for each, by a maximum flow
//!     second brute                                the same by a look at every set of targets, for at most 10 branches a side
//!     second time                                 reads instances and writes the nanoseconds that the flows took

mod brute;
mod draw;
mod flow;
mod instance;

use std::hint::black_box;
use std::io::{self, BufWriter, Read, Write};
use std::process::ExitCode;
use std::time::Instant;

use draw::{Lots, Sizes};
use instance::{Answer, Instance};

fn read_all() -> Result<Vec<Instance>, String> {
    let mut bytes = Vec::new();
    io::stdin()
        .read_to_end(&mut bytes)
        .map_err(|error| error.to_string())?;
    instance::read_all(&bytes)
}

fn answer_each(answer: impl Fn(&Instance) -> Result<Answer, String>) -> Result<(), String> {
    let mut out = BufWriter::new(io::stdout());
    for instance in read_all()? {
        writeln!(out, "{}", answer(&instance)?).map_err(|error| error.to_string())?;
    }
    out.flush().map_err(|error| error.to_string())
}

fn time() -> Result<(), String> {
    let instances = read_all()?;
    let mut nanoseconds = 0;
    for instance in &instances {
        let start = Instant::now();
        black_box(flow::solve(black_box(instance)));
        nanoseconds += start.elapsed().as_nanos();
    }
    println!("{nanoseconds}");
    Ok(())
}

fn write_each(numbers: &[String], make: fn(&mut Lots, &Sizes) -> Instance) -> Result<(), String> {
    let numbers: Vec<u64> = numbers
        .iter()
        .map(|text| text.parse().map_err(|_| format!("not a number: {text}")))
        .collect::<Result<_, _>>()?;
    let [seed, count, size, density] = numbers[..] else {
        return Err("wanted: SEED COUNT SIZE DENSITY".to_string());
    };
    if size == 0 || size > 64 || density > 100 {
        return Err("SIZE is 1 to 64, DENSITY 0 to 100".to_string());
    }
    let mut lots = Lots::new(seed);
    let sizes = Sizes { size, density };
    let mut out = BufWriter::new(io::stdout());
    (0..count)
        .try_for_each(|_| make(&mut lots, &sizes).write(&mut out))
        .and_then(|()| out.flush())
        .map_err(|error| error.to_string())
}

fn run(words: &[String]) -> Result<(), String> {
    match words.split_first() {
        Some((command, numbers)) if command == "instances" => write_each(numbers, draw::any),
        Some((command, numbers)) if command == "full" => write_each(numbers, draw::full),
        Some((command, [])) if command == "solve" => {
            answer_each(|instance| Ok(flow::solve(instance)))
        }
        Some((command, [])) if command == "brute" => answer_each(brute::solve),
        Some((command, [])) if command == "time" => time(),
        _ => Err("wanted: instances, full, solve, brute or time".to_string()),
    }
}

fn main() -> ExitCode {
    let words: Vec<String> = std::env::args().skip(1).collect();
    match run(&words) {
        Ok(()) => ExitCode::SUCCESS,
        Err(message) => {
            eprintln!("second: {message}");
            ExitCode::FAILURE
        }
    }
}
