//! The session list in Rust: the whole input at once, the output through a buffer.

use std::io::{self, Write};

use common::questions::STRAP;
use common::session::{slot_time, SLOTS};

use crate::safe;

const BUFFER: usize = 1 << 16;

/// More than any printed line takes.
const ROOM: usize = 64;

/// The output that is not written yet.
struct Output<W: Write> {
    to: W,
    buffer: Vec<u8>,
    filled: usize,
}

impl<W: Write> Output<W> {
    fn new(to: W) -> Output<W> {
        Output { to, buffer: vec![0; BUFFER], filled: 0 }
    }

    /// Writes what has gathered where no line may fit any more.
    #[inline(always)]
    fn make_room(&mut self) -> io::Result<()> {
        if self.filled + ROOM > BUFFER {
            return self.write();
        }
        Ok(())
    }

    fn write(&mut self) -> io::Result<()> {
        self.to.write_all(&self.buffer[..self.filled])?;
        self.filled = 0;
        Ok(())
    }

    #[inline(always)]
    fn text<const N: usize>(&mut self, text: &[u8; N]) {
        self.buffer[self.filled..][..N].copy_from_slice(text);
        self.filled += N;
    }

    /// A number's decimal digits and a space.
    #[inline(always)]
    fn number(&mut self, number: u32) {
        let length = number.checked_ilog10().unwrap_or(0) as usize + 1;
        let mut rest = number;
        for place in self.buffer[self.filled..][..length].iter_mut().rev() {
            *place = b'0' + (rest % 10) as u8;
            rest /= 10;
        }
        self.filled += length;
        self.text(b" ");
    }
}

/// The receiving session.
struct Session {
    used: u32,
    reference: Option<u8>,
}

/// What a line is.
enum Line {
    Word([u8; 16]),
    Miss,
    Bad,
}

/// The first line of a rest that is not empty, and what comes behind it.
#[inline(always)]
fn first_line(rest: &[u8]) -> (Line, &[u8]) {
    if let Some((digits, behind)) = rest.split_first_chunk::<16>() {
        if behind.first().is_none_or(|&byte| byte == b'\n') {
            // The symbols of 16 digits, all at once: the digits 0 to 3 differ from `0` in the two lowest bits alone.
            let symbols = u128::from_le_bytes(*digits) ^ (u128::MAX / 255 * u128::from(b'0'));
            if symbols & (u128::MAX / 255 * 0xfc) == 0 {
                return (Line::Word(symbols.to_le_bytes()), behind.get(1..).unwrap_or(&[]));
            }
        }
    }
    let length = rest.iter().position(|&byte| byte == b'\n').unwrap_or(rest.len());
    let line = if rest[..length] == *b"-" { Line::Miss } else { Line::Bad };
    (line, rest.get(length + 1..).unwrap_or(&[]))
}

/// Lists a word in the next slot.
#[inline(always)]
fn list_word<W: Write>(session: &mut Session, word: &[u8; 16], out: &mut Output<W>) {
    out.number(slot_time(session.used));
    session.used += 1;
    let mut message = [0; 5];
    let Ok(reading) = safe::read_each(STRAP.0, STRAP.1, &mut message, word) else {
        session.reference = None;
        return out.text(b"doubtful\n");
    };
    let [constant, coefficients @ ..] = message;
    out.number(coefficients.iter().rev().fold(0, |rate, &symbol| 4 * rate + u32::from(symbol)));
    let zone = session.reference.map_or(b'-', |reference| b'0' + (constant.wrapping_sub(reference) & 3));
    session.reference = Some(constant);
    out.text(&[zone, b' ', b'0' + reading.wrong as u8, b' ', b'0' + reading.margin as u8, b'\n']);
}

/// Lists a session.
pub fn list(input: &[u8], to: impl Write) -> io::Result<()> {
    let mut out = Output::new(to);
    let mut session = Session { used: 0, reference: None };
    out.text(b"ms rate zone wrong margin\n");
    let mut rest = input;
    while !rest.is_empty() {
        out.make_room()?;
        let (line, behind) = first_line(rest);
        rest = behind;
        match line {
            Line::Bad => out.text(b"bad\n"),
            _ if session.used == SLOTS => {
                out.text(b"over\n");
                break;
            }
            Line::Word(word) => list_word(&mut session, &word, &mut out),
            Line::Miss => {
                out.number(slot_time(session.used));
                out.text(b"missed\n");
                session = Session { used: session.used + 1, reference: None };
            }
        }
    }
    out.write()
}
