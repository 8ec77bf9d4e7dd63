// The outside judge: runs the given Rust beside an independent model and writes vector files.
#![allow(clippy::excessive_precision)] // constants stand as they are published
mod common;
mod counts;
mod damage;
mod decoder_judge;
mod ears;
mod ears_judge;
mod ears_plan;
mod ears_refusals;
mod encoder_judge;
mod faults;
mod given;
mod known;
mod model;
mod plan;
mod random;
mod refusals;
mod set;
mod signals;
mod tables;
mod vectors;

use decoder_judge::DecoderJudge;
use ears_judge::EarsJudge;
use encoder_judge::EncoderJudge;
use plan::Plan;
use set::Set;
use std::io::BufWriter;

const USAGE: &str = "\
usage: oracle decoder|encoder|ears --seed N --runs N [--frames N] [--coefficients FILE|random] [--rates HZ,HZ..]
       oracle refusals decoder|encoder|ears [--coefficients FILE]
       oracle faults decoder|encoder [--coefficients FILE]
       oracle damage decoder|encoder|ears [--coefficients FILE]
Vectors go to standard output, counts to standard error. The status is 1 where a difference is on no list.
  --frames        good frames in a run, 16 if not given
  --coefficients  a file of table, row, entry, value and bits, or `random` for a new set in each run;
                  shared/published/coefficients.tsv beside the project if not given
  --rates         some of 8000,16000,24000,32000,44100,48000; all if not given";

const PUBLISHED: &str = concat!(
    env!("CARGO_MANIFEST_DIR"),
    "/../../shared/published/coefficients.tsv"
);

// Says what is wrong and what is wanted.
fn wrong(what: &str) -> ! {
    eprintln!("oracle: {what}\n{USAGE}");
    std::process::exit(2)
}

fn number(option: &str, text: &str) -> u64 {
    text.parse()
        .unwrap_or_else(|_| wrong(&format!("{option} wants a number, not {text:?}")))
}

fn rates(text: &str) -> Vec<u32> {
    let rate = |part: &str| match model::rates::RATES.iter().find(|r| r.hz.to_string() == part) {
        Some(rate) => rate.hz,
        None => wrong(&format!("--rates wants rates of the table, not {part:?}")),
    };
    text.split(',').map(rate).collect()
}

fn published(file: &str) -> Set {
    Set::read(file).unwrap_or_else(|e| wrong(&format!("{e}; name a file with --coefficients")))
}

struct Options {
    seed: Option<u64>,
    runs: Option<usize>,
    frames: usize,
    coefficients: String,
    rates: Vec<u32>,
}

fn read_options(arguments: &[String]) -> Options {
    let mut options = Options {
        seed: None,
        runs: None,
        frames: 16,
        coefficients: PUBLISHED.to_string(),
        rates: model::rates::RATES.iter().map(|r| r.hz).collect(),
    };
    for pair in arguments.chunks(2) {
        let [option, value] = pair else {
            wrong(&format!("{} wants a value", pair[0]))
        };
        match option.as_str() {
            "--seed" => options.seed = Some(number(option, value)),
            "--runs" => options.runs = Some(number(option, value) as usize),
            "--frames" => options.frames = number(option, value) as usize,
            "--coefficients" => options.coefficients = value.clone(),
            "--rates" => options.rates = rates(value),
            _ => wrong(&format!("what is {option}?")),
        }
    }
    options
}

fn plan(options: Options) -> Plan {
    Plan {
        seed: options.seed.unwrap_or_else(|| wrong("--seed is missing")),
        runs: options.runs.unwrap_or_else(|| wrong("--runs is missing")),
        frames: options.frames,
        rates: options.rates,
        set: (options.coefficients != "random").then(|| published(&options.coefficients)),
    }
}

// What a decoder's vectors are filled with.
fn decoder(what: &str, options: Options) -> bool {
    if what == "damage" {
        return damage::decoder(&published(&options.coefficients));
    }
    let mut judge = DecoderJudge::new(BufWriter::new(std::io::stdout().lock()));
    match what {
        "refusals" => refusals::decoder(&mut judge, &published(&options.coefficients)),
        "faults" => faults::decoder(&mut judge, &published(&options.coefficients)),
        _ => plan::run_decoder(&plan(options), &mut judge),
    }
    judge.end()
}

// What an encoder's vectors are filled with.
fn encoder(what: &str, options: Options) -> bool {
    if what == "damage" {
        return damage::encoder(&published(&options.coefficients));
    }
    let mut judge = EncoderJudge::new(BufWriter::new(std::io::stdout().lock()));
    match what {
        "refusals" => refusals::encoder(&mut judge, &published(&options.coefficients)),
        "faults" => faults::encoder(&mut judge, &published(&options.coefficients)),
        _ => plan::run_encoder(&plan(options), &mut judge),
    }
    judge.end()
}

// What the vectors of both ears are filled with.
fn ears(what: &str, options: Options) -> bool {
    if what == "damage" {
        return damage::ears(&published(&options.coefficients));
    }
    let mut judge = EarsJudge::new(BufWriter::new(std::io::stdout().lock()));
    match what {
        "refusals" => ears_refusals::ears(&mut judge, &published(&options.coefficients)),
        _ => ears_plan::run_ears(&plan(options), &mut judge),
    }
    judge.end()
}

fn main() {
    let arguments: Vec<String> = std::env::args().skip(1).collect();
    let words: Vec<&str> = arguments.iter().map(|a| a.as_str()).collect();
    let (what, end, rest) = match words[..] {
        [end @ ("decoder" | "encoder" | "ears"), ..] => ("runs", end, &arguments[1..]),
        [what @ ("refusals" | "damage"), end @ "ears", ..] => (what, end, &arguments[2..]),
        [what @ ("refusals" | "faults" | "damage"), end @ ("decoder" | "encoder"), ..] => {
            (what, end, &arguments[2..])
        }
        _ => wrong("say what to make"),
    };
    let options = read_options(rest);
    eprintln!(
        "oracle: the given Rust is that of {}; at 44100 Hz its 48000 judges",
        given::SOURCE
    );
    let clean = match end {
        "decoder" => decoder(what, options),
        "encoder" => encoder(what, options),
        _ => ears(what, options),
    };
    std::process::exit(if clean { 0 } else { 1 })
}
