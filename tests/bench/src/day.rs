//! A day's tracking numbers: one call for all of them, beside a call for each.

use crate::files::SEED;
use crate::timing::best;
use crate::{head, row, MILLION, ROUNDS_OF_A_MILLION};
use peliranopi::TRACKING_LEN;
use reference::generate::{number_of, Rng};
use std::hint::black_box;

/// A million numbers in one buffer. The table ends with the last row here, so that ./bench can add the one of python3-stdnum.
pub fn measure() {
    let day = numbers();
    if let Some(path) = std::env::args().nth(1) {
        std::fs::write(path, &day).expect("the day can be written");
    }
    let mut answers = [(); 4].map(|()| vec![u8::MAX; MILLION]);
    let [at_once, each, there, each_there] = &mut answers;
    let tasks: [&mut dyn FnMut() -> usize; 4] = [
        &mut || peliranopi::check_numbers(black_box(&day), at_once).expect("the day is whole"),
        &mut || by_a_call_each(&day, each, alone),
        &mut || {
            reference::numbers::check_numbers(black_box(&day), there).expect("the day is whole")
        },
        &mut || by_a_call_each(&day, each_there, alone_there),
    ];
    let nanos = measured(tasks);
    assert!(answers.iter().all(|one| *one == answers[0]));
    print(nanos, answers[0].iter().filter(|byte| **byte == 0).count());
}

/// Nanoseconds a number, of each task. All count the same numbers.
fn measured(mut tasks: [&mut dyn FnMut() -> usize; 4]) -> [f64; 4] {
    let passed = tasks.each_mut().map(|task| task());
    assert!(passed.iter().all(|count| *count == passed[0]));
    let [a, b, c, d] = tasks;
    let tasks: [&mut dyn FnMut(); 4] = [
        &mut || _ = black_box(a()),
        &mut || _ = black_box(b()),
        &mut || _ = black_box(c()),
        &mut || _ = black_box(d()),
    ];
    best(ROUNDS_OF_A_MILLION, tasks).map(|micros| micros * 1000.0 / MILLION as f64)
}

fn print([at_once, each, there, each_there]: [f64; 4], passed: usize) {
    let ratio = at_once / each;
    println!();
    println!(
        "A million tracking numbers, one behind the other, of which {passed} pass: all by one call, and each by its own."
    );
    println!("Best of {ROUNDS_OF_A_MILLION} runs or more; the answers are written in each.");
    head(&["Target", "At most", "Measured"]);
    row(&[
        "a day: one call / a call each".to_string(),
        format!("{:.2}", 1.0),
        format!("{ratio:.2}"),
    ]);
    head(&["Numbers of a day", "ns each"]);
    for (name, nanos) in [
        ("library, one call of `check_numbers`", at_once),
        ("library, a call of `check_number` each", each),
        ("reference, one call", there),
        ("reference, a call each", each_there),
    ] {
        row(&[name.to_string(), format!("{nanos:.0}")]);
    }
}

/// Nine of ten numbers pass. One symbol of the others is another digit, so that the check is wrong, or a letter among the digits.
fn numbers() -> Vec<u8> {
    let mut rng = Rng::new(SEED);
    let mut day = Vec::with_capacity(TRACKING_LEN * MILLION);
    for _ in 0..MILLION {
        let mut number = number_of(rng.digits(TRACKING_LEN - 1));
        if rng.percent(10) {
            let symbol = &mut number[rng.below(TRACKING_LEN - 1)];
            *symbol = match rng.percent(50) {
                true => b'0' + (*symbol - b'0' + 1) % 10,
                false => rng.capital(),
            };
        }
        day.extend(number);
    }
    day
}

/// Checks each number by its own call, and writes its answer; counts those that pass.
fn by_a_call_each(day: &[u8], answers: &mut [u8], answer: impl Fn(&[u8]) -> u8) -> usize {
    let mut passed = 0;
    for (number, byte) in day.chunks_exact(TRACKING_LEN).zip(answers) {
        *byte = answer(black_box(number));
        passed += usize::from(*byte == 0);
    }
    passed
}

fn alone(number: &[u8]) -> u8 {
    let refused = peliranopi::check_number(number).err();
    refused.map_or(0, |refused| refused.why.number() as u8)
}

fn alone_there(number: &[u8]) -> u8 {
    let refused = reference::numbers::check_number(number).err();
    refused.map_or(0, |refusal| refusal.number as u8)
}
