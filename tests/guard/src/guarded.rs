//! Answers a call by the static library's functions as they are, on guarded buffers.

use crate::call::{Answer, Call, BYTE, WORD};
use crate::pages::{Lent, Room, Side};
use peliranopi::sys;
use reference::generate::{CarryCall, DayCall, IssueCall, LineCall, PurposeCall, WriterCall};

/// A room for each buffer of a call: seven at most, the single numbers among them.
pub struct Desk {
    rooms: [Room; 7],
    used: usize,
    side: Side,
}

impl Desk {
    pub fn new() -> Desk {
        Desk {
            rooms: std::array::from_fn(|_| Room::new()),
            used: 0,
            side: Side::Before,
        }
    }

    /// The answer to a call whose buffers all lie against the page on this side. What is not lent
    /// for writing must stay as it was.
    pub fn answer(&mut self, call: &Call, side: Side) -> Answer {
        self.used = 0;
        self.side = side;
        match call {
            Call::Judge {
                file,
                countries,
                words,
            } => self.judge(file, countries, *words),
            Call::ReadLine {
                version,
                file,
                offset,
            } => self.read_line(*version, file, *offset),
            Call::FindField(call) => self.find_field(call),
            Call::WriteLine(call) => self.write_line(call),
            Call::WritePurpose(call) => self.write_purpose(call),
            Call::CheckNumber { symbols } => self.check_number(symbols),
            Call::CheckNumbers(call) => self.check_numbers(call),
            Call::IssueNumber(call) => self.issue_number(call),
            Call::NextCarry(call) => self.next_carry(call),
            Call::CheckIban { symbols } => self.check_iban(symbols),
            Call::CheckIdentcode { code } => self.check_identcode(code),
            Call::ReadIdentcode { code } => self.read_identcode(code),
            Call::IssueIdentcode(call) => self.issue_identcode(call),
        }
    }

    /// Lays a buffer in the next room.
    fn lay<T: Copy>(&mut self, content: &[T]) -> Lent<T> {
        self.used += 1;
        self.rooms[self.used - 1].lay(content, self.side)
    }

    fn number(&mut self) -> Lent<usize> {
        self.lay(&[WORD as usize])
    }

    fn judge(&mut self, bytes: &[u8], pairs: &[u8], words: usize) -> Answer {
        let file = self.lay(bytes);
        let countries = self.lay(pairs);
        let list = self.lay(&vec![WORD; words]);
        let (lines, parcels, place) = (self.number(), self.number(), self.number());
        let cents = self.lay(&[u64::from(WORD)]);
        // SAFETY: each pointer comes with the length of its buffer or points to one number, all of
        // them in rooms of their own. The same holds for the calls below.
        let refusal = unsafe {
            sys::peliranopi_judge(
                file.start,
                file.length,
                countries.start,
                countries.length,
                list.start,
                list.length,
                lines.start,
                parcels.start,
                cents.start,
                place.start,
            )
        };
        stayed(&file, bytes);
        stayed(&countries, pairs);
        let numbers = vec![value(lines), value(parcels), cents.content()[0]];
        answer("judge", refusal, place, numbers).with_list(list)
    }

    fn read_line(&mut self, version: u32, bytes: &[u8], offset: usize) -> Answer {
        let file = self.lay(bytes);
        let record = self.lay(&[WORD]);
        let (fields, next, place) = (self.number(), self.number(), self.number());
        // SAFETY: as in `judge`.
        let refusal = unsafe {
            sys::peliranopi_read_line(
                version,
                file.start,
                file.length,
                offset,
                record.start,
                fields.start,
                next.start,
                place.start,
            )
        };
        stayed(&file, bytes);
        let numbers = vec![record.content()[0].into(), value(fields), value(next)];
        answer("read_line", refusal, place, numbers)
    }

    fn find_field(&mut self, call: &LineCall) -> Answer {
        let file = self.lay(&call.file);
        let (start, length, place) = (self.number(), self.number(), self.number());
        // SAFETY: as in `judge`.
        let refusal = unsafe {
            sys::peliranopi_find_field(
                call.version,
                file.start,
                file.length,
                call.offset,
                call.number,
                start.start,
                length.start,
                place.start,
            )
        };
        stayed(&file, &call.file);
        let numbers = vec![value(start), value(length)];
        answer("find_field", refusal, place, numbers)
    }

    fn write_line(&mut self, call: &WriterCall) -> Answer {
        let text = self.lay(&call.text);
        let ends = self.lay(&call.ends);
        let output = self.lay(&vec![BYTE; call.output]);
        let (written, place) = (self.number(), self.number());
        // SAFETY: as in `judge`.
        let refusal = unsafe {
            sys::peliranopi_write_line(
                call.version,
                call.record,
                text.start,
                text.length,
                ends.start,
                ends.length,
                output.start,
                output.length,
                call.fill,
                written.start,
                place.start,
            )
        };
        stayed(&text, &call.text);
        stayed(&ends, &call.ends);
        answer("write_line", refusal, place, vec![value(written)]).with_output(output)
    }

    fn write_purpose(&mut self, call: &PurposeCall) -> Answer {
        let file = self.lay(&call.file);
        let countries = self.lay(&call.countries);
        let list = self.lay(&vec![WORD; call.words]);
        let output = self.lay(&vec![BYTE; call.output]);
        let (written, place) = (self.number(), self.number());
        // SAFETY: as in `judge`.
        let refusal = unsafe {
            sys::peliranopi_write_purpose(
                file.start,
                file.length,
                countries.start,
                countries.length,
                call.line,
                list.start,
                list.length,
                output.start,
                output.length,
                written.start,
                place.start,
            )
        };
        stayed(&file, &call.file);
        stayed(&countries, &call.countries);
        answer("write_purpose", refusal, place, vec![value(written)])
            .with_list(list)
            .with_output(output)
    }

    fn check_number(&mut self, bytes: &[u8]) -> Answer {
        let symbols = self.lay(bytes);
        let (kind, place) = (self.lay(&[WORD]), self.number());
        // SAFETY: as in `judge`.
        let refusal = unsafe {
            sys::peliranopi_check_number(symbols.start, symbols.length, kind.start, place.start)
        };
        stayed(&symbols, bytes);
        let numbers = vec![kind.content()[0].into()];
        answer("check_number", refusal, place, numbers)
    }

    fn check_numbers(&mut self, call: &DayCall) -> Answer {
        let numbers = self.lay(&call.numbers);
        let answers = self.lay(&vec![BYTE; call.room]);
        let (passed, place) = (self.number(), self.number());
        // SAFETY: as in `judge`.
        let refusal = unsafe {
            sys::peliranopi_check_numbers(
                numbers.start,
                numbers.length,
                answers.start,
                answers.length,
                passed.start,
                place.start,
            )
        };
        stayed(&numbers, &call.numbers);
        answer("check_numbers", refusal, place, vec![value(passed)]).with_output(answers)
    }

    fn issue_number(&mut self, call: &IssueCall) -> Answer {
        let body = self.lay(&call.body);
        let output = self.lay(&vec![BYTE; call.output]);
        let (written, place) = (self.number(), self.number());
        // SAFETY: as in `judge`.
        let refusal = unsafe {
            sys::peliranopi_issue_number(
                body.start,
                body.length,
                output.start,
                output.length,
                written.start,
                place.start,
            )
        };
        stayed(&body, &call.body);
        answer("issue_number", refusal, place, vec![value(written)]).with_output(output)
    }

    fn next_carry(&mut self, call: &CarryCall) -> Answer {
        let (next, place) = (self.lay(&[WORD]), self.number());
        // SAFETY: as in `judge`.
        let refusal =
            unsafe { sys::peliranopi_next_carry(call.carry, call.symbol, next.start, place.start) };
        let numbers = vec![next.content()[0].into()];
        answer("next_carry", refusal, place, numbers)
    }

    fn check_iban(&mut self, bytes: &[u8]) -> Answer {
        let symbols = self.lay(bytes);
        let place = self.number();
        // SAFETY: as in `judge`.
        let refusal =
            unsafe { sys::peliranopi_check_iban(symbols.start, symbols.length, place.start) };
        stayed(&symbols, bytes);
        answer("check_iban", refusal, place, Vec::new())
    }

    fn check_identcode(&mut self, bytes: &[u8]) -> Answer {
        let code = self.lay(bytes);
        let place = self.number();
        // SAFETY: as in `judge`.
        let refusal =
            unsafe { sys::peliranopi_check_identcode(code.start, code.length, place.start) };
        stayed(&code, bytes);
        answer("check_identcode", refusal, place, Vec::new())
    }

    fn read_identcode(&mut self, bytes: &[u8]) -> Answer {
        let code = self.lay(bytes);
        let parts = self.lay(&[WORD as usize; 12]);
        let place = self.number();
        // SAFETY: as in `judge`; the parts are twelve numbers.
        let refusal = unsafe {
            sys::peliranopi_read_identcode(code.start, code.length, parts.start.cast(), place.start)
        };
        stayed(&code, bytes);
        let numbers = parts.content().iter().map(|number| *number as u64);
        answer("read_identcode", refusal, place, numbers.collect())
    }

    fn issue_identcode(&mut self, call: &IssueCall) -> Answer {
        let body = self.lay(&call.body);
        let output = self.lay(&vec![BYTE; call.output]);
        let (written, place) = (self.number(), self.number());
        // SAFETY: as in `judge`.
        let refusal = unsafe {
            sys::peliranopi_issue_identcode(
                body.start,
                body.length,
                output.start,
                output.length,
                written.start,
                place.start,
            )
        };
        stayed(&body, &call.body);
        answer("issue_identcode", refusal, place, vec![value(written)]).with_output(output)
    }
}

/// What was lent for reading alone holds what it held.
fn stayed<T: Copy + PartialEq>(lent: &Lent<T>, content: &[T]) {
    assert!(lent.content() == content, "an input was changed");
}

fn value(number: Lent<usize>) -> u64 {
    number.content()[0] as u64
}

/// An answer of a function that is lent neither list nor output.
fn answer(function: &'static str, refusal: u32, place: Lent<usize>, numbers: Vec<u64>) -> Answer {
    Answer {
        function,
        refusal,
        place: place.content()[0],
        numbers,
        list: Vec::new(),
        output: Vec::new(),
    }
}

impl Answer {
    fn with_list(self, list: Lent<u32>) -> Answer {
        let list = list.content().to_vec();
        Answer { list, ..self }
    }

    fn with_output(self, output: Lent<u8>) -> Answer {
        let output = output.content().to_vec();
        Answer { output, ..self }
    }
}
