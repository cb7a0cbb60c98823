//! Wants equal results of all contenders, and then how long each takes.
//!
//! `bench [--results] [--seconds S] [--passes 'NAME;NAME..'] GROUP=FILE..`: a line a contender, of the
//! columns file, pass, contender, nanoseconds an item, items, repetitions.
// A slice as an argument is its address and its length, in C too.
#![allow(improper_ctypes, improper_ctypes_definitions)]

mod crate_passes;
mod facts;
mod foreign;
mod goblin_passes;
mod object_passes;
mod passes;
mod sorted_passes;

use facts::Facts;
use passes::{PASSES, Pass};
use std::hint::black_box;
use std::panic::{AssertUnwindSafe, catch_unwind};
use std::time::Instant;

/// What a pass returns where it has none.
pub const NONE: u64 = u64::MAX;

/// How many bytes each name of the look-ups has.
pub const NAME: usize = 28;

/// How many bytes the record of a name and its version has: the size of each in a byte, both, and at the end the hash
/// number of the version in four bytes of little order.
pub const RECORD: usize = 64;

/// A pass by a contender: of a file and a text, which returns a sum. All are called in one way, that of C.
pub type Call = unsafe extern "C-unwind" fn(&[u8], &[u8]) -> u64;

/// The shortest repetition that is timed, in seconds.
const SHORTEST: f64 = 2e-4;

/// A contender in a pass: how many calls a repetition has, and the least time of a call.
struct Lane {
    name: &'static str,
    call: Call,
    calls: u32,
    least: f64,
}

/// The number for some bytes: how many they are, and the first of them.
pub fn sum_of(bytes: &[u8]) -> u64 {
    bytes.len() as u64 + bytes.first().map_or(0, |first| u64::from(*first))
}

/// The contenders that have this pass over this file, if all return the same.
fn lanes(pass: &Pass, data: &[u8], text: &[u8]) -> Result<Vec<Lane>, String> {
    let mut found = Vec::new();
    let mut results = Vec::new();
    for &(name, call) in pass.calls {
        let start = Instant::now();
        // SAFETY: both slices live through the call.
        match catch_unwind(AssertUnwindSafe(|| unsafe { call(data, text) })) {
            Ok(NONE) | Err(_) => continue,
            Ok(result) => results.push((name, result)),
        }
        let once = start.elapsed().as_secs_f64().max(1e-9);
        let calls = (SHORTEST / once).ceil().clamp(1.0, 1e6) as u32;
        found.push(Lane { name, call, calls, least: f64::MAX });
    }
    if results.windows(2).any(|pair| pair[0].1 != pair[1].1) {
        return Err(format!("{}: {results:?}", pass.name));
    }
    Ok(found)
}

/// Times each contender in turn, again and again, and keeps the least of each.
fn race(lanes: &mut [Lane], data: &[u8], text: &[u8], seconds: f64) -> usize {
    let start = Instant::now();
    let mut rounds = 0;
    while rounds < 5 || start.elapsed().as_secs_f64() < seconds {
        for step in 0..lanes.len() {
            let at = (step + rounds) % lanes.len();
            let lane = &mut lanes[at];
            let begin = Instant::now();
            for _ in 0..lane.calls {
                // SAFETY: both slices live through the call.
                black_box(unsafe { (lane.call)(black_box(data), black_box(text)) });
            }
            let each = begin.elapsed().as_secs_f64() / f64::from(lane.calls);
            lane.least = lane.least.min(each);
        }
        rounds += 1;
        if rounds >= 3 && start.elapsed().as_secs_f64() > 6.0 * seconds {
            break;
        }
    }
    rounds
}

/// The bytes of a file, at a multiple of 16.
fn read(path: &str) -> (Vec<u128>, usize) {
    let bytes = std::fs::read(path).unwrap_or_else(|error| panic!("{path}: {error}"));
    let mut kept = vec![0u128; bytes.len() / 16 + 1];
    // SAFETY: the vector has room for these bytes.
    unsafe { std::ptr::copy_nonoverlapping(bytes.as_ptr(), kept.as_mut_ptr().cast(), bytes.len()) };
    (kept, bytes.len())
}

fn main() {
    std::panic::set_hook(Box::new(|_| {}));
    let mut seconds = 0.3;
    let mut results_only = false;
    let mut only: Vec<String> = Vec::new();
    let mut differs = false;
    let mut words = std::env::args().skip(1);
    while let Some(word) = words.next() {
        match word.as_str() {
            "--results" => results_only = true,
            "--seconds" => seconds = words.next().unwrap().parse().unwrap(),
            "--passes" => only = words.next().unwrap().split(';').map(String::from).collect(),
            _ => {
                let (group, path) = word.split_once('=').expect("GROUP=FILE");
                let (kept, len) = read(path);
                // SAFETY: the vector holds so many bytes of the file.
                let data = unsafe { std::slice::from_raw_parts(kept.as_ptr().cast::<u8>(), len) };
                let facts = Facts::of(data);
                for pass in PASSES.iter().filter(|pass| pass.groups.split(' ').any(|g| g == group)) {
                    if !only.is_empty() && !only.iter().any(|name| *name == pass.name) {
                        continue;
                    }
                    let items = (pass.items)(&facts);
                    if items == 0 {
                        continue;
                    }
                    let text = (pass.text)(&facts);
                    match lanes(pass, data, text) {
                        Err(fault) => {
                            differs = true;
                            eprintln!("{path}: {fault}");
                        }
                        Ok(_) if results_only => {}
                        Ok(mut lanes) => {
                            let rounds = race(&mut lanes, data, text, seconds);
                            for lane in &lanes {
                                let each = lane.least * 1e9 / items as f64;
                                println!("{group}\t{}\t{}\t{each:.4}\t{items}\t{rounds}", pass.name, lane.name);
                            }
                        }
                    }
                }
            }
        }
    }
    if differs {
        std::process::exit(1);
    }
}
