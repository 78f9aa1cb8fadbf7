//! The second implementation of both sessions, over the second implementation of the words.
//!
//! A session may have any values, sound or not. As numbers it is q, m, the last constant or the reference, and the
//! slots used.

use common::questions::{answer_code, is_alphabet, is_variables, yes};
use common::session::{slot_time, SLOTS};

use crate::model::{self, Model};

/// Stands for a reference that is not held, and for a zone that there is not.
pub const NONE: u32 = 256;

/// The parts of question 3 that a session fails, in the order of `PARTS`.
pub type Unsound = [bool; 5];
pub const PARTS: [&str; 5] = ["q", "m", "the constant", "the slots used", "the start"];

#[derive(Clone, Copy, Debug)]
pub struct Sender {
    q: u32,
    m: u32,
    last: u8,
    used: u32,
}

impl Sender {
    /// Open: asks 1, 2.
    pub fn open(q: u32, m: u32) -> Result<Sender, u32> {
        answer_code(q, m)?;
        Ok(Sender { q, m, last: 0, used: 0 })
    }

    pub fn of([q, m, last, used]: [u32; 4]) -> Sender {
        Sender { q, m, last: last as u8, used }
    }

    pub fn numbers(&self) -> [u32; 4] {
        [self.q, self.m, self.last.into(), self.used]
    }

    pub fn unsound(&self) -> Unsound {
        unsound(self.q, self.m, Some(self.last), self.used, self.last == 0)
    }

    /// Send: asks 3 to 7. Gives the next session and the word.
    pub fn send(&self, message: &[u8], word_len: usize) -> Result<(Sender, Vec<u8>), u32> {
        answer_session(self.unsound(), self.used)?;
        model::encode(self.q, self.m, message, word_len)?;
        let mut placed = message.to_vec();
        placed[0] = (self.last + message[0]) % self.q as u8;
        let next = Sender { last: placed[0], used: self.used + 1, ..*self };
        Ok((next, model::codeword(self.q, &placed)))
    }
}

#[derive(Clone, Copy, Debug)]
pub struct Receiver {
    q: u32,
    m: u32,
    reference: Option<u8>,
    used: u32,
}

/// What an accepted receive answers besides the message.
#[derive(Clone, Copy, Debug)]
pub struct Delivery {
    pub zone: Option<u8>,
    pub wrong: u32,
    pub margin: u32,
    pub time: u32,
}

impl Delivery {
    pub fn numbers(&self) -> [u32; 4] {
        [self.zone.map_or(NONE, u32::from), self.wrong, self.margin, self.time]
    }
}

/// What a receive answers, with the next session where the slot is used, and the message where the word is read.
pub enum Received {
    Read(Receiver, Delivery, Vec<u8>),
    Doubtful(Receiver),
    Refused(u32),
}

impl Receiver {
    /// Open: asks 1, 2.
    pub fn open(q: u32, m: u32) -> Result<Receiver, u32> {
        answer_code(q, m)?;
        Ok(Receiver { q, m, reference: None, used: 0 })
    }

    pub fn of([q, m, reference, used]: [u32; 4]) -> Receiver {
        Receiver { q, m, reference: u8::try_from(reference).ok(), used }
    }

    pub fn numbers(&self) -> [u32; 4] {
        [self.q, self.m, self.reference.map_or(NONE, u32::from), self.used]
    }

    pub fn unsound(&self) -> Unsound {
        unsound(self.q, self.m, self.reference, self.used, self.reference.is_none())
    }

    /// The time of the slot that the next call uses.
    pub fn time(&self) -> u32 {
        slot_time(self.used)
    }

    fn next(&self, reference: Option<u8>) -> Receiver {
        Receiver { reference, used: self.used + 1, ..*self }
    }

    /// Receive: asks 3, 4, 5, 7, 8, 9.
    pub fn receive(&self, model: &Model, message_len: usize, word: &[u8]) -> Received {
        if let Err(number) = answer_session(self.unsound(), self.used) {
            return Received::Refused(number);
        }
        let reading = match model.decode(self.q, self.m, message_len, word) {
            Ok(reading) => reading,
            Err(9) => return Received::Doubtful(self.next(None)),
            Err(number) => return Received::Refused(number),
        };
        let constant = reading.message[0];
        let zone = self.reference.map(|reference| (constant + self.q as u8 - reference) % self.q as u8);
        let mut message = reading.message;
        message[0] = zone.unwrap_or(0);
        let delivery = Delivery { zone, wrong: reading.wrong, margin: reading.margin, time: self.time() };
        Received::Read(self.next(Some(constant)), delivery, message)
    }

    /// Miss: asks 3, 4.
    pub fn miss(&self) -> Result<Receiver, u32> {
        answer_session(self.unsound(), self.used)?;
        Ok(self.next(None))
    }
}

/// Question 3, part by part. `fresh` says that there is nothing that a slot would have left.
fn unsound(q: u32, m: u32, constant: Option<u8>, used: u32, fresh: bool) -> Unsound {
    let too_large = constant.is_some_and(|constant| u32::from(constant) >= q);
    [!is_alphabet(q), !is_variables(m), too_large, used > SLOTS, used == 0 && !fresh]
}

/// Questions 3 and 4.
fn answer_session(unsound: Unsound, used: u32) -> Result<(), u32> {
    yes(unsound == [false; 5], 3)?;
    yes(used < SLOTS, 4)
}
