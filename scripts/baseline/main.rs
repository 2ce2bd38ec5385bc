//! A prover and verifier of two AIRs, Fibonacci's and that of the machine of
//! `docs/guide/machine.md`, in plain Rust, by which `bench-baseline` measures `voskligan`: the same
//! statement, the same transcript, the same bytes of the proof.
//!
//! It is written as such programs are: an AIR is a function that the compiler inlines, where
//! `voskligan` reads it from the statement and interprets its nodes at each point; nothing is
//! proved, want of memory isn't answered, and a broken invariant panics. It does less besides: it
//! has one field and one set of parameters. It takes one block of SHA-256 at a time, where
//! `voskligan` takes four in vectors, for which Rust wants `unsafe` code.
//!
//! Built with `--cfg wide` for x86-64-v3 it has that code too (`wide.rs`): eight lanes of AVX2 for
//! elements and for SHA-256, in transforms, quotient, openings, trees, paths and the search for a
//! witness, as provers that are used write it. It makes the same bytes.

mod air;
mod challenger;
mod commitment;
mod dft;
mod extension;
mod fibonacci;
mod field;
mod fri;
mod fri_prover;
mod fri_verifier;
mod json;
mod machine;
mod merkle;
mod proof;
mod protocol;
mod prover;
mod quotient;
mod sha256;
mod statement;
mod verifier;
#[cfg(wide)]
mod wide;

use air::{first_broken, Air};
use fibonacci::Fibonacci;
use json::{parse_rows, Json};
use machine::Machine;
use proof::Proof;
use statement::{air_digest, Statement};
use std::process::ExitCode;
use std::time::Instant;

const USAGE: &str = "baseline prove STATEMENT TRACE PROOF | baseline verify STATEMENT PROOF";

/// What is done with a statement, and the files beside it.
enum Command<'a> {
    Prove { trace: &'a str, output: &'a str },
    Verify { proof: &'a str },
}

fn read(path: &str) -> Result<Vec<u8>, String> {
    std::fs::read(path).map_err(|error| format!("{path}: {error}"))
}

/// Tells how long something took.
fn timed<T>(what: &str, work: impl FnOnce() -> T) -> T {
    let start = Instant::now();
    let done = work();
    eprintln!("{what} {:.4} s", start.elapsed().as_secs_f64());
    done
}

fn prove<A: Air<W, P>, const W: usize, const P: usize>(
    statement: Statement<P>,
    trace: &str,
    output: &str,
) -> Result<(), String> {
    let text = read(trace)?;
    let rows = timed("trace", || parse_rows::<W>(&text)).ok_or("the trace has another form")?;
    drop(text);
    let preprocessed = statement.preprocessed.as_ref();
    let count = preprocessed.map_or(rows.len(), |beside| beside.len());
    if !rows.len().is_power_of_two() || rows.len() != count {
        return Err("the number of rows is no power of two, or another than beside".to_string());
    }
    let check = || first_broken::<A, W, P>(&rows, preprocessed, &statement.publics);
    if let Some((row, constraint)) = timed("check", check) {
        return Err(format!("row {row} breaks constraint {constraint}"));
    }
    let proof = timed("prove", || prover::prove::<A, W, P>(statement, rows));
    std::fs::write(output, proof.to_bytes()).map_err(|error| format!("{output}: {error}"))
}

fn verify<A: Air<W, P>, const W: usize, const P: usize>(
    statement: Statement<P>,
    proof: &str,
) -> Result<(), String> {
    let bytes = read(proof)?;
    let proof = Proof::from_bytes(&bytes).ok_or("the bytes are no proof")?;
    let verdict = timed("verify", || verifier::verify::<A, W, P>(statement, &proof));
    verdict.map_err(|refusal| format!("refused: {refusal}"))?;
    println!("accepted");
    Ok(())
}

/// Does what is asked with a statement of the AIR.
fn run<A: Air<W, P>, const W: usize, const P: usize>(
    json: Json,
    command: Command,
) -> Result<(), String> {
    let statement = Statement::read(&json, A::PUBLIC_VALUES).ok_or("the statement isn't plain")?;
    drop(json);
    match command {
        Command::Prove { trace, output } => prove::<A, W, P>(statement, trace, output),
        Command::Verify { proof } => verify::<A, W, P>(statement, proof),
    }
}

/// Does what is asked with the statement in a file, whichever AIR it has.
fn run_file(statement: &str, command: Command) -> Result<(), String> {
    let text = read(statement)?;
    let json = timed("statement", || Json::parse(&text)).ok_or("the statement is no JSON")?;
    drop(text);
    match air_digest(&json)
        .ok_or("the statement's AIR isn't plain")?
        .as_str()
    {
        Fibonacci::DIGEST => run::<Fibonacci, { fibonacci::WIDTH }, 0>(json, command),
        Machine::DIGEST => run::<Machine, { machine::WIDTH }, { machine::PROGRAM }>(json, command),
        other => Err(format!("the statement's AIR is another, {other}")),
    }
}

fn main() -> ExitCode {
    let words: Vec<String> = std::env::args().skip(1).collect();
    let words: Vec<&str> = words.iter().map(String::as_str).collect();
    let ended = match words[..] {
        ["prove", statement, trace, output] => {
            run_file(statement, Command::Prove { trace, output })
        }
        ["verify", statement, proof] => run_file(statement, Command::Verify { proof }),
        _ => Err(USAGE.to_string()),
    };
    match ended {
        Ok(()) => ExitCode::SUCCESS,
        Err(reason) => {
            eprintln!("{reason}");
            ExitCode::FAILURE
        }
    }
}
