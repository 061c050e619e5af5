//! CSV records in hand-written plain Rust, unproved: quotes and doubled quotes; LF, CR or CRLF; blank
//! lines skipped; a byte order mark at the very start dropped.

use std::io::{self, BufRead, BufReader, Chain, Cursor, ErrorKind, Read, Take};

/// The fields of a record, one after another.
#[derive(Default)]
pub struct Record {
    bytes: Vec<u8>,
    ends: Vec<usize>,
}

impl Record {
    pub fn len(&self) -> usize {
        self.ends.len()
    }

    pub fn field(&self, number: usize) -> Option<&[u8]> {
        let end = *self.ends.get(number)?;
        let begin = if number == 0 { 0 } else { self.ends[number - 1] };
        Some(&self.bytes[begin..end])
    }

    fn clear(&mut self) {
        self.bytes.clear();
        self.ends.clear();
    }

    fn end_field(&mut self) {
        self.ends.push(self.bytes.len());
    }
}

/// The records of an input, which are read one by one.
pub struct Records<R> {
    input: Chain<Cursor<Vec<u8>>, Take<BufReader<R>>>,
}

enum Place {
    /// Before a record, where blank lines may be.
    Blank,
    Start,
    Plain,
    Quoted,
    /// After a quote inside quotes, which either closes them or is the first of two.
    Quote,
}

impl<R: Read> Records<R> {
    /// The records of the input's first bytes, as many as are named here.
    pub fn new(input: R, most_bytes: u64) -> io::Result<Records<R>> {
        let mut input = BufReader::new(input).take(most_bytes);
        let mut first = Vec::new();
        input.by_ref().take(3).read_to_end(&mut first)?;
        if first == b"\xEF\xBB\xBF" {
            first.clear();
        }
        Ok(Records { input: Cursor::new(first).chain(input) })
    }

    /// Reads the next record into this one. Is false at the end.
    pub fn read(&mut self, record: &mut Record) -> io::Result<bool> {
        record.clear();
        let mut place = Place::Blank;
        loop {
            let bytes = match self.input.fill_buf() {
                Err(error) if error.kind() == ErrorKind::Interrupted => continue,
                bytes => bytes?,
            };
            if bytes.is_empty() {
                let is_there = !matches!(place, Place::Blank);
                record.end_field();
                return Ok(is_there);
            }
            let mut number = 0;
            while let Some(&byte) = bytes.get(number) {
                number += 1;
                place = match (place, byte) {
                    (Place::Quoted, b'"') => Place::Quote,
                    (Place::Blank | Place::Start, b'"') => Place::Quoted,
                    (Place::Quote, b'"') => {
                        record.bytes.push(b'"');
                        Place::Quoted
                    }
                    (Place::Quoted, _) => {
                        record.bytes.push(byte);
                        Place::Quoted
                    }
                    (_, b',') => {
                        record.end_field();
                        Place::Start
                    }
                    (Place::Blank, b'\n' | b'\r') => Place::Blank,
                    (_, b'\n' | b'\r') => {
                        record.end_field();
                        self.input.consume(number);
                        return Ok(true);
                    }
                    _ => {
                        let more = bytes[number..].iter().take_while(|byte| !matches!(byte, b',' | b'\n' | b'\r')).count();
                        record.bytes.extend_from_slice(&bytes[number - 1..number + more]);
                        number += more;
                        Place::Plain
                    }
                };
            }
            let count = bytes.len();
            self.input.consume(count);
        }
    }

    /// Whether the end of a further line was read already, so that nobody has to wait for it.
    pub fn has_line(&self) -> bool {
        let bytes = self.input.get_ref().1.get_ref().buffer();
        bytes.strip_prefix(b"\n").unwrap_or(bytes).contains(&b'\n')
    }

    /// Whether the input goes on after the bytes that are read. To be asked at their end.
    pub fn is_cut(&mut self) -> io::Result<bool> {
        let input = self.input.get_mut().1;
        Ok(input.limit() == 0 && !input.get_mut().fill_buf()?.is_empty())
    }
}
