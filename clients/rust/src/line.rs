//! What is printed, put together before it is written: a text mostly goes out at once.

use std::{fmt, str};

const ROOM: usize = 128;
// The greatest number of 64 bits has so many digits.
const DIGITS: usize = 20;

/// Text on its way to a writer.
pub(crate) struct Line<'w, W> {
    out: &'w mut W,
    bytes: [u8; ROOM],
    len: usize,
}

/// A version as it is printed.
pub(crate) struct Shown<'a> {
    pub(crate) numbers: [u64; 3],
    pub(crate) pre_release: Option<&'a str>,
    pub(crate) build: Option<&'a str>,
}

impl<W: fmt::Write> Line<'_, W> {
    pub(crate) fn new(out: &mut W) -> Line<'_, W> {
        let (bytes, len) = ([0; ROOM], 0);
        Line { out, bytes, len }
    }

    /// Puts some characters behind the others.
    pub(crate) fn add(&mut self, text: &str) -> fmt::Result {
        if self.len + text.len() > ROOM {
            self.end()?;
        }
        match self.bytes.get_mut(self.len..self.len + text.len()) {
            Some(room) => room.copy_from_slice(text.as_bytes()),
            None => return self.out.write_str(text),
        }
        self.len += text.len();
        Ok(())
    }

    fn add_number(&mut self, mut number: u64) -> fmt::Result {
        let (mut digits, mut at) = ([b'0'; DIGITS], DIGITS - 1);
        while number > 9 {
            digits[at] = b'0' + (number % 10) as u8;
            number /= 10;
            at -= 1;
        }
        digits[at] = b'0' + number as u8;
        self.add(str::from_utf8(&digits[at..]).unwrap_or_default())
    }

    pub(crate) fn add_version(&mut self, version: &Shown) -> fmt::Result {
        let [major, minor, patch] = version.numbers;
        self.add_number(major)?;
        self.add(".")?;
        self.add_number(minor)?;
        self.add(".")?;
        self.add_number(patch)?;
        for (sign, text) in [("-", version.pre_release), ("+", version.build)] {
            if let Some(text) = text {
                self.add(sign)?;
                self.add(text)?;
            }
        }
        Ok(())
    }

    /// Writes what is not written yet.
    pub(crate) fn end(&mut self) -> fmt::Result {
        let text = self.bytes.get(..self.len).map(str::from_utf8);
        self.len = 0;
        match text {
            Some(Ok(text)) => self.out.write_str(text),
            // There are whole texts alone.
            _ => Err(fmt::Error),
        }
    }
}
