//! What a client sends, cut into lines or records. A line that never ends takes no more room than the longest line there may be.

use records::LENGTH;
use std::io::{self, Read};

/// The longest line.
pub const LONGEST: usize = 65_536;

/// How much is read at once.
const ROOM: usize = 65_536;

pub struct Input<R> {
    from: R,
    bytes: Vec<u8>,
    /// Where what is not taken yet begins.
    at: usize,
    ended: bool,
    /// Within a line that is too long, of which the rest is left out.
    skipping: bool,
}

/// A line, or that it was too long.
#[derive(PartialEq, Eq, Debug)]
pub enum Cut {
    Line(Vec<u8>),
    TooLong,
}

/// A record and its key, of which there is none after a cut one.
#[derive(PartialEq, Eq, Debug)]
pub struct Keyed {
    pub record: Vec<u8>,
    pub key: Option<Vec<u8>>,
}

impl<R: Read> Input<R> {
    pub fn new(from: R) -> Input<R> {
        Input {
            from,
            bytes: Vec::new(),
            at: 0,
            ended: false,
            skipping: false,
        }
    }

    /// What is there and not taken.
    pub fn rest(&self) -> &[u8] {
        &self.bytes[self.at..]
    }

    pub fn ended(&self) -> bool {
        self.ended
    }

    /// Waits for more; whether there may be any.
    pub fn fill(&mut self) -> io::Result<bool> {
        self.bytes.drain(..self.at);
        self.at = 0;
        let before = self.bytes.len();
        self.bytes.resize(before + ROOM, 0);
        let read = loop {
            match self.from.read(&mut self.bytes[before..]) {
                Err(why) if why.kind() == io::ErrorKind::Interrupted => continue,
                read => break read,
            }
        };
        self.bytes.truncate(before + *read.as_ref().unwrap_or(&0));
        self.ended = read? == 0;
        Ok(!self.ended)
    }

    /// The next line that is there whole, without its end; the last one may have none.
    pub fn line(&mut self) -> Option<Cut> {
        loop {
            let rest = self.rest();
            let end = rest.iter().position(|&byte| byte == b'\n');
            let (length, taken) = match end {
                Some(end) => (end, end + 1),
                None if self.ended && !rest.is_empty() => (rest.len(), rest.len()),
                None if rest.len() > LONGEST => {
                    self.at = self.bytes.len();
                    return (!std::mem::replace(&mut self.skipping, true)).then_some(Cut::TooLong);
                }
                None if self.skipping => {
                    self.at = self.bytes.len();
                    return None;
                }
                None => return None,
            };
            let line = rest[..length].to_vec();
            self.at += taken;
            // The end of a line that was reported already.
            if std::mem::replace(&mut self.skipping, false) {
                continue;
            }
            return Some(match length > LONGEST {
                true => Cut::TooLong,
                false => Cut::Line(line),
            });
        }
    }

    /// The next record with its key after it: a byte that has the key's length, and the key. At the end of input the last may be cut.
    pub fn keyed(&mut self) -> Option<Keyed> {
        let rest = self.rest();
        if rest.len() <= LENGTH {
            let record = if self.ended { self.record() } else { None };
            return record.map(|record| Keyed { record, key: None });
        }
        let (record, rest) = (rest[..LENGTH].to_vec(), &rest[LENGTH..]);
        let length = 1 + usize::from(rest[0]);
        if rest.len() < length && !self.ended {
            return None;
        }
        // A key that is cut is none that there may be.
        let key = rest.get(1..length).map_or(vec![0], <[u8]>::to_vec);
        self.at += LENGTH + length.min(rest.len());
        Some(Keyed {
            record,
            key: Some(key),
        })
    }

    /// The next record that is there whole; at the end of input the last may be cut.
    pub fn record(&mut self) -> Option<Vec<u8>> {
        let rest = self.rest();
        let length = match rest.len() {
            0 => return None,
            LENGTH.. => LENGTH,
            cut if self.ended => cut,
            _ => return None,
        };
        let record = rest[..length].to_vec();
        self.at += length;
        Some(record)
    }
}

#[cfg(test)]
mod tests {
    use super::*;

    /// Bytes that come a few at a time.
    struct Drops<'a>(&'a [u8], usize);

    impl Read for Drops<'_> {
        fn read(&mut self, room: &mut [u8]) -> io::Result<usize> {
            let some = self.1.min(self.0.len()).min(room.len());
            room[..some].copy_from_slice(&self.0[..some]);
            self.0 = &self.0[some..];
            Ok(some)
        }
    }

    fn lines(text: &[u8], drop: usize) -> Vec<Cut> {
        let mut input = Input::new(Drops(text, drop));
        let mut all = Vec::new();
        loop {
            while let Some(line) = input.line() {
                all.push(line);
            }
            if input.ended() {
                return all;
            }
            input.fill().unwrap();
            assert!(input.rest().len() <= LONGEST + ROOM);
        }
    }

    #[test]
    fn lines_come_whole_however_they_are_sent() {
        let long = vec![b'x'; 3 * LONGEST];
        let text = [&b"one\n\n"[..], &long, b"\ntwo\nthree"].concat();
        let line = |text: &str| Cut::Line(text.as_bytes().to_vec());
        let expected = [
            line("one"),
            line(""),
            Cut::TooLong,
            line("two"),
            line("three"),
        ];
        for drop in [1, 7, 4096, 1 << 20] {
            assert_eq!(lines(&text, drop), expected, "{drop}");
        }
        assert_eq!(lines(&long, 5000), [Cut::TooLong]);
    }

    #[test]
    fn the_last_record_may_be_cut() {
        let bytes: Vec<u8> = (0..40).collect();
        let mut input = Input::new(Drops(&bytes, 3));
        let mut all = Vec::new();
        while !input.ended() {
            input.fill().unwrap();
            while let Some(record) = input.record() {
                all.push(record);
            }
        }
        assert_eq!(all, [&bytes[..16], &bytes[16..32], &bytes[32..]]);
    }

    #[test]
    fn a_record_has_its_key_behind_it() {
        let mut bytes: Vec<u8> = (0..16).collect();
        bytes.extend([2, b'a', b'b']);
        bytes.extend(16..32);
        bytes.push(0);
        bytes.extend(32..48);
        bytes.extend([3, b'c']);
        for drop in [1, 5, 100] {
            let mut input = Input::new(Drops(&bytes, drop));
            let mut all = Vec::new();
            while !input.ended() {
                input.fill().unwrap();
                while let Some(keyed) = input.keyed() {
                    all.push(keyed);
                }
            }
            let one = |from: usize, to: usize, key: &[u8]| Keyed {
                record: bytes[from..to].to_vec(),
                key: Some(key.to_vec()),
            };
            let expected = [one(0, 16, b"ab"), one(19, 35, b""), one(36, 52, b"\0")];
            assert_eq!(all, expected, "{drop}");
        }
        let mut input = Input::new(Drops(&bytes[..7], 100));
        input.fill().unwrap();
        assert_eq!(input.keyed(), None);
        input.fill().unwrap();
        let cut = Keyed {
            record: bytes[..7].to_vec(),
            key: None,
        };
        assert_eq!(input.keyed(), Some(cut));
    }
}
