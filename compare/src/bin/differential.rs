//! The differential tests: the library against the independent second program, on generated inputs.

use compare::run::Run;
use compare::{blocks, index, records, texts};
use std::process::ExitCode;

const SEED: u64 = 1985;
const CASES: u64 = 1_000_000;

const USAGE: &str = "\
usage: tests/differential.sh [SEED] [CASES]

Compares the library with the independent second program, on inputs generated from the seed (1985); a case is one compared call
(1000000 of them). It prints how often each outcome of each call was met, and fails at the first difference. It also fails where
an outcome was never met, but only at the default number of cases or more: with fewer, rare outcomes are missed by chance, so they
are named and not judged.";

/// The calls outside histories.
const CALLS: [fn(&mut Run); 20] = [
    records::refusal,
    records::read_header,
    records::write_header,
    records::write_header,
    records::frequency_rate,
    records::sample_rate,
    records::read_samples,
    records::write_samples,
    records::sample_time,
    records::phases,
    records::totals,
    records::segment,
    records::segment,
    records::step,
    blocks::export,
    blocks::export_block,
    blocks::import,
    index::open_any,
    texts::record_line,
    texts::list,
];

fn main() -> ExitCode {
    let given: Vec<String> = std::env::args().skip(1).collect();
    if given == ["--help"] {
        println!("{USAGE}");
        return ExitCode::SUCCESS;
    }
    let given: Result<Vec<u64>, _> = given.iter().map(|argument| argument.parse()).collect();
    let (seed, cases) = match given.as_deref() {
        Ok([]) => (SEED, CASES),
        Ok([seed]) => (*seed, CASES),
        Ok([seed, cases]) => (*seed, *cases),
        _ => {
            eprintln!("{USAGE}");
            return ExitCode::FAILURE;
        }
    };
    println!("seed {seed}");
    let mut run = Run::new(seed);
    blocks::most_blocks(&mut run);
    while run.cases < cases {
        CALLS.iter().for_each(|call| (0..3).for_each(|_| call(&mut run)));
        index::history(&mut run);
    }
    let unmet = run.report();
    println!("{} cases, no difference", run.cases);
    if unmet.is_empty() {
        return ExitCode::SUCCESS;
    }
    println!("NEVER MET: {}", unmet.join("; "));
    if cases >= CASES {
        return ExitCode::FAILURE;
    }
    println!("fewer than {CASES} cases: that is not judged");
    ExitCode::SUCCESS
}
