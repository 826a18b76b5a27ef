//! Runs every function of the static library with each of its buffers against an inaccessible page,
//! on either side, so that one byte read or written outside kills the test: guard [SEED].

mod call;
mod cases;
mod guarded;
mod outside;
mod pages;
mod plain;
mod process;

use std::collections::BTreeSet;
use std::sync::atomic::{AtomicUsize, Ordering};

use call::Call;
use guarded::Desk;
use pages::Side;
use peliranopi::Reason;
use process::{in_child, End};
use reference::generate::Rng;

/// How the buffers of each call are laid: against the page on a side, then on plain memory.
const WAYS: [Option<Side>; 3] = [Some(Side::Behind), Some(Side::Before), None];

fn main() {
    let seed = match std::env::args().nth(1) {
        Some(seed) => seed.parse().expect("the seed is a number"),
        None => 7,
    };
    let killed = outside::all_killed();
    let calls = cases::all(&mut Rng::new(seed));
    // In a child, so that a call which gets killed can be named.
    let done = pages::shared_number();
    let end = in_child(|| run(&calls, done));
    if end != End::Exited(0) {
        tell(end, &calls, done.load(Ordering::Relaxed));
        std::process::exit(1);
    }
    println!(
        "test: {} guarded calls: stayed inside their buffers (seed {seed})",
        2 * calls.len()
    );
    println!("test: {killed} calls outside their buffers: killed");
}

/// Runs each call in all ways, counting them, and requires the same answer of all.
fn run(calls: &[Call], done: &AtomicUsize) {
    let mut desk = Desk::new();
    let mut given = BTreeSet::new();
    for call in calls {
        let [behind, before, plain] = WAYS.map(|way| {
            let answer = match way {
                Some(side) => desk.answer(call, side),
                None => plain::answer(call),
            };
            done.fetch_add(1, Ordering::Relaxed);
            answer
        });
        let alike = behind == plain && before == plain;
        assert!(alike, "{}: {behind:?}, {before:?}, {plain:?}", call.shown());
        given.insert((plain.function, plain.refusal));
    }
    every_answer_is_among(&given);
}

/// A run without, say, one accepted file would show little: acceptance and each of the refusals is
/// among the answers, and each of the thirteen functions both accepts and refuses.
fn every_answer_is_among(given: &BTreeSet<(&str, u32)>) {
    let numbers: BTreeSet<u32> = given.iter().map(|(_, refusal)| *refusal).collect();
    let refusals = Reason::ALL.iter().map(|refusal| refusal.number());
    let due: BTreeSet<u32> = refusals.chain([0]).collect();
    assert_eq!(numbers, due, "tests/guard gets other answers: {given:?}");
    let both: BTreeSet<(&str, bool)> = given
        .iter()
        .map(|(function, refusal)| (*function, *refusal == 0))
        .collect();
    assert_eq!(both.len(), 26, "{given:?}");
}

/// Says in which call the child ended, of which so many were done.
fn tell(end: End, calls: &[Call], done: usize) {
    let Some(call) = calls.get(done / WAYS.len()) else {
        println!("tests/guard: {end:?} behind the last call");
        return;
    };
    let laid = match WAYS[done % WAYS.len()] {
        Some(side) => format!("a page {side:?} each buffer"),
        None => "plain buffers".to_string(),
    };
    println!("tests/guard: {end:?} with {laid}: {}", call.shown());
}
