//! Job texts: ours against document 01, `jobs [SEED [RANDOM TEXTS]]`. Through the static library, and a sample of them through the program.

use oracle::cases::Random;
use oracle::jobs::{self, answer, answer_in_domain, damaged, small, status, valid};
use std::collections::BTreeMap;
use std::io::Write;
use std::process::{Command, Stdio};

const PROGRAM: &str = "target/bin/polyjob";
const SAMPLE: usize = 400;

/// What was found of one operation.
#[derive(Default)]
struct Count {
    tried: u64,
    status: [u64; 10],
    inside: u64,
    original: u64,
    library: u64,
    program: u64,
    programs: u64,
}

#[cfg(feature = "job")]
fn library(text: &[u8]) -> Option<Vec<u8>> {
    Some(oracle::ours::job(text))
}

#[cfg(not(feature = "job"))]
fn library(_: &[u8]) -> Option<Vec<u8>> {
    None
}

/// What the program writes.
fn program(text: &[u8]) -> Vec<u8> {
    let mut child = Command::new(PROGRAM).stdin(Stdio::piped()).stdout(Stdio::piped()).spawn().expect("the program runs");
    // it may stop reading a long text
    let _ = child.stdin.take().expect("its input").write_all(text);
    child.wait_with_output().expect("it ends").stdout
}

fn main() {
    let mut args = std::env::args().skip(1).map(|a| a.parse::<u64>().expect("SEED and RANDOM TEXTS are numbers"));
    let (seed, random) = (args.next().unwrap_or(1), args.next().unwrap_or(100000));
    assert_eq!(answer(b"op=gcd\na=-1 0 1\nb=2 -3 1\n"), "op=gcd\nstatus=0\nout=-1 1\nrest=\nsteps=19\n", "document 01's example");
    let has_program = std::path::Path::new(PROGRAM).exists();
    let mut texts = small();
    println!("seed {seed}, {} small jobs, {random} random texts", texts.len());
    let mut r = Random::new(seed ^ (0x30 << 32));
    texts.extend((0..random).map(|i| if i % 2 == 0 { valid(&mut r) } else { damaged(&mut r) }));
    let every = texts.len().div_ceil(SAMPLE);
    let (mut counts, mut shown) = (BTreeMap::<String, Count>::new(), 0);
    for (i, text) in texts.iter().enumerate() {
        let want = answer(text);
        let (op, s) = status(&want);
        let c = counts.entry(op).or_default();
        c.tried += 1;
        c.status[s] += 1;
        let mut same = |got: &[u8], what: &str| {
            if got == want.as_bytes() {
                return 0;
            }
            shown += 1;
            if shown <= 10 {
                let (t, g) = (String::from_utf8_lossy(text), String::from_utf8_lossy(got));
                println!("DIFFERS from document 01, {what}:\n{t:?}\n  ours  {g:?}\n  other {want:?}");
            }
            1
        };
        if let Some(got) = answer_in_domain(text) {
            c.inside += 1;
            c.original += same(got.as_bytes(), "the original");
        }
        if let Some(got) = library(text) {
            c.library += same(&got, "the library");
        }
        if has_program && i % every == 0 {
            c.programs += 1;
            c.program += same(&program(text), "the program");
        }
    }
    for o in jobs::OPS.iter().map(|o| o.name).chain(["?"]) {
        let Some(c) = counts.get(o) else { continue };
        let status: Vec<String> = (0..10).filter(|&i| c.status[i] > 0).map(|i| format!("{i}:{}", c.status[i])).collect();
        println!("{o:<13} tried {:>7}, differ from document 01: library {}, program {} of {}, the original {} of {} inside the domain; status {}", c.tried, c.library, c.program, c.programs, c.original, c.inside, status.join(" "));
    }
    if library(b"").is_none() {
        println!("not compared: the static library `job` (not landed)");
    }
    if !has_program {
        println!("not compared: the program polyjob (not landed)");
    }
    let differ: u64 = counts.values().map(|c| c.library + c.program + c.original).sum();
    println!("{differ} differ");
    std::process::exit((differ > 0) as i32);
}
