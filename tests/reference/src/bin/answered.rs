//! Answers the stored inputs of two test programs, in their formats: answered writings|purposes. Their folders under crates/ hold
//! these inputs as `stdin`; tests/alone holds the answers against `stdout` there.

use reference::purpose::purpose;
use reference::writer::write_line;
use reference::Refusal;
use std::io::{Read, Write};

fn main() -> std::io::Result<()> {
    let answers: fn(&[u8]) -> Vec<u8> = match std::env::args().nth(1).as_deref() {
        Some("writings") => writings,
        Some("purposes") => purposes,
        _ => {
            eprintln!("usage: answered writings|purposes");
            std::process::exit(2);
        }
    };
    let mut input = Vec::new();
    std::io::stdin().read_to_end(&mut input)?;
    std::io::stdout().write_all(&answers(&input))
}

/// "version, record, fill, room, how many ends, the ends, each with a space behind it, and the text": a call a line. The answer, a space
/// and the whole output, which was all points before.
fn writings(input: &[u8]) -> Vec<u8> {
    let mut answers = Vec::new();
    for mut line in lines(input) {
        let [version, record] = [(); 2].map(|()| number(&mut line) as u32);
        let (fill, mut output) = (number(&mut line), vec![b'.'; number(&mut line)]);
        let ends: Vec<usize> = (0..number(&mut line)).map(|_| number(&mut line)).collect();
        let answer = write_line(version, record, line, &ends, &mut output, fill);
        answers.extend(said("written", answer).bytes());
        answers.extend([b" ", &output[..], b"\n"].concat());
    }
    answers
}

/// "`#`, a line's number, the output's and the list's length, each with a space behind it, the countries, a line feed, and a file": the
/// answer, the whole output of 40 bytes, which was full of points, and the whole list of 20 words, which was full of sevens.
fn purposes(input: &[u8]) -> Vec<u8> {
    let mut answers = Vec::new();
    for mut case in input.split(|byte| *byte == b'#').skip(1) {
        let [line, room, words] = [(); 3].map(|()| number(&mut case));
        let countries = up_to_line_feed(&mut case);
        let (mut output, mut list) = ([b'.'; 40], [7; 20]);
        let answer = purpose(
            case,
            countries,
            line,
            &mut list[..words],
            &mut output[..room],
        );
        answers.extend(said("ok", answer).bytes());
        answers.extend([b" |", &output[..], b"|"].concat());
        answers.extend(list.iter().flat_map(|word| format!(" {word}").into_bytes()));
        answers.push(b'\n');
    }
    answers
}

/// The lines of an input, each of which ends with a line feed.
fn lines(input: &[u8]) -> impl Iterator<Item = &[u8]> {
    input
        .split_inclusive(|byte| *byte == b'\n')
        .map(|line| line.strip_suffix(b"\n").unwrap_or(line))
}

/// Takes a number and the byte behind it off the input's start.
fn number(input: &mut &[u8]) -> usize {
    let digits = input
        .iter()
        .take_while(|byte| byte.is_ascii_digit())
        .count();
    let text = std::str::from_utf8(&input[..digits]).expect("digits are text");
    let value = text.parse().expect("a number stands here");
    *input = &input[input.len().min(digits + 1)..];
    value
}

/// Takes the bytes up to the first line feed, and that, off the input's start.
fn up_to_line_feed<'a>(input: &mut &'a [u8]) -> &'a [u8] {
    let line_feed = input.iter().position(|byte| *byte == b'\n');
    let (bytes, rest) = input.split_at(line_feed.expect("a line feed stands here"));
    *input = &rest[1..];
    bytes
}

/// How many bytes were written, or the refusal, in the words of the test programs.
fn said(written: &str, answer: Result<usize, Refusal>) -> String {
    match answer {
        Ok(length) => format!("{written} {length}"),
        Err(refusal) => format!("no {} {}", refusal.number, refusal.place),
    }
}
