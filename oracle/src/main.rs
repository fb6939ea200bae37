//! Compares the port's static library with orion-sdr's own Rust, module by module.
//! A new module is a file with its `Subject`s and a `compare`, and two lines here; its C functions are called as by the Rust crate (`rust/src/call.rs`).

mod answer;
#[allow(dead_code)]
#[path = "../../rust/src/call.rs"]
mod call;
mod cells;
mod codes;
mod desk;
mod dispersal;
mod fields;
mod gray;
mod harness;
mod interleaver;
mod lent;
mod lines;
mod mended;
mod packed;
mod permutation;
mod pilots;
mod points;
mod random;
mod reader;
mod receiver;
mod refusals;
mod reports;
mod same;
mod sender;
mod session;
mod session_calls;
mod session_scripts;
mod session_sides;
mod shrink;
mod signals;
mod super_frames;
mod symbols;
#[allow(dead_code)]
#[path = "../../rust/src/sys.rs"]
mod sys;
mod ts;
mod words;

/// The seed of a run that names none.
const SEED: u64 = 300_744;

fn main() {
    let mut run = harness::Run::new(arguments());
    same::compare(&mut run);
    ts::compare(&mut run);
    dispersal::compare(&mut run);
    gray::compare(&mut run);
    pilots::compare(&mut run);
    symbols::compare(&mut run);
    interleaver::compare(&mut run);
    codes::compare(&mut run);
    words::compare(&mut run);
    sender::compare(&mut run);
    receiver::compare(&mut run);
    session::compare(&mut run);
    desk::compare(&mut run);
    reports::compare(&mut run);
    reader::compare(&mut run);
    run.finish();
}

/// What the command line asks for.
fn arguments() -> harness::Wanted {
    let mut wanted = harness::Wanted { seed: SEED, times: 1, part: 1, only: Vec::new(), first: false };
    let mut words = std::env::args().skip(1);
    while let Some(word) = words.next() {
        if word == "--first" {
            wanted.first = true;
            continue;
        }
        let value = words.next().unwrap_or_else(|| usage());
        match (word.as_str(), value.parse::<u64>()) {
            ("--seed", Ok(number)) => wanted.seed = number,
            ("--times", Ok(number)) if number > 0 => wanted.times = number as usize,
            ("--part", Ok(number)) if number > 0 => wanted.part = number as usize,
            ("--only", _) => wanted.only.push(value),
            _ => usage(),
        }
    }
    wanted
}

/// Says what the command line may hold, and ends the program.
fn usage() -> ! {
    eprintln!("oracle/run [--seed N] [--times K] [--part K] [--only TEXT].. [--first]: N a whole number, K at least 1");
    std::process::exit(2);
}
