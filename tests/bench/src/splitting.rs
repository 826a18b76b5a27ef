//! The mere splitting of a file into fields, by csv-core.

use csv_core::{ReadRecordResult, Reader, ReaderBuilder, Terminator};

pub struct Splitter {
    reader: Reader,
    text: Vec<u8>,
    ends: Vec<usize>,
}

impl Splitter {
    /// Buffers are lent that take every line.
    pub fn new() -> Splitter {
        let mut builder = ReaderBuilder::new();
        builder
            .delimiter(b';')
            .quoting(false)
            .terminator(Terminator::CRLF);
        Splitter {
            reader: builder.build(),
            text: vec![0; 65_536],
            ends: vec![0; 65_536],
        }
    }

    /// How many parts the lines have, record types counted.
    pub fn split(&mut self, file: &[u8]) -> usize {
        self.reader.reset();
        let (mut rest, mut parts) = (file, 0);
        loop {
            let (result, read, _, found) =
                self.reader
                    .read_record(rest, &mut self.text, &mut self.ends);
            rest = &rest[read..];
            parts += found;
            match result {
                ReadRecordResult::Record | ReadRecordResult::InputEmpty => {}
                ReadRecordResult::End => return parts,
                ReadRecordResult::OutputFull | ReadRecordResult::OutputEndsFull => {
                    panic!("the buffers take every line")
                }
            }
        }
    }
}
