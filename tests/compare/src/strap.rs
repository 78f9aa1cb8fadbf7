//! Pack and unpack compared: the answer and every byte of the message's array.

use common::calls;
use common::questions::STRAP;
use common::random::Random;

use crate::check::{Counts, Guarded, Report};
use crate::model;
use crate::strap_model::{self, Message, Record, LENGTH};

/// The worked example of packing.
const EXAMPLE: (Record, Message) = (Record { rate: 141, zone: 1 }, [1, 1, 3, 0, 2]);

/// Messages of every length up to this one are tried.
const GREATEST_LENGTH: usize = 9;

/// The comparison of both calls.
pub struct Strap {
    packed: Counts,
    unpacked: Counts,
}

impl Strap {
    pub fn new() -> Strap {
        let counts = |name, questions| Counts::new(name, questions, &[STRAP]);
        Strap { packed: counts("pack", &[5, 13]), unpacked: counts("unpack", &[5, 6]) }
    }

    /// Compares one pack into a message with this content at entry. Answers what the model does.
    fn pack(&mut self, report: &mut Report, entry: &[u8], record: Record) -> Result<Message, u32> {
        let answer = strap_model::pack(entry.len(), record);
        let due = answer.err().unwrap_or(calls::DONE);
        let due_message = answer.as_ref().map_or(entry, |message| message);
        let shift = report.cases as usize % 8;
        let mut message = Guarded::new(entry, shift);
        let got = calls::pack(message.lend(), record.rate, record.zone);
        let same = message == Guarded::new(due_message, shift);
        report.require(got == due && same, || {
            let left = message.content();
            format!(
                "pack {record:?} into {entry:?}\n  expected {due}, message {due_message:?}\n  \
                 got {got}, message {left:?}\n  message array as expected: {same}"
            )
        });
        self.packed.add(STRAP, answer.err().unwrap_or(0));
        report.cases += 1;
        answer
    }

    /// Compares one unpack. Answers what the model does.
    fn unpack(&mut self, report: &mut Report, given: &[u8]) -> Result<Record, u32> {
        let answer = strap_model::unpack(given);
        let due = answer.map_or_else(u64::from, |Record { rate, zone }| calls::values(rate.into(), zone.into()));
        let shift = report.cases as usize % 8;
        let mut message = Guarded::new(given, shift);
        let got = u64::from(calls::unpack(message.lend()));
        let same = message == Guarded::new(given, shift);
        report.require(got == due && same, || {
            format!("unpack {given:?}\n  expected {due}\n  got {got}\n  message array as given: {same}")
        });
        self.unpacked.add(STRAP, answer.err().unwrap_or(0));
        report.cases += 1;
        answer
    }

    /// Packs and unpacks the worked example.
    pub fn example(&mut self, report: &mut Report) {
        let (record, message) = EXAMPLE;
        let packed = self.pack(report, &[0xee; LENGTH], record);
        report.require(packed == Ok(message), || format!("{record:?} is packed as {packed:?}, not {message:?}"));
        let unpacked = self.unpack(report, &message);
        report.require(unpacked == Ok(record), || format!("{message:?} is unpacked as {unpacked:?}, not {record:?}"));
    }

    /// Every rate is packed with every zone, zones above 3 included, and what the model packs is unpacked. That the
    /// record comes back is asked of the model alone: each answer of the proved code is compared with the model's.
    pub fn every_record(&mut self, report: &mut Report, random: &mut Random) {
        for rate in 0..=u8::MAX {
            for zone in 0..=u8::MAX {
                let record = Record { rate, zone };
                let Ok(message) = self.pack(report, &random.bytes(LENGTH), record) else { continue };
                let unpacked = self.unpack(report, &message);
                report.require(unpacked == Ok(record), || format!("{record:?} comes back as {unpacked:?}"));
            }
        }
    }

    /// Every message of the strap's code is unpacked, and the record that the model finds is packed. That the message
    /// comes back is asked of the model alone, too.
    pub fn every_message(&mut self, report: &mut Report, random: &mut Random) {
        let (q, m) = STRAP;
        for message in model::messages(q, m) {
            let record = self.unpack(report, &message).expect("a sound message is unpacked");
            let packed = self.pack(report, &random.bytes(LENGTH), record);
            let same = packed.is_ok_and(|packed| packed[..] == message);
            report.require(same, || format!("{message:?} comes back as {packed:?}"));
        }
    }

    /// Every byte at every place of a message, the other symbols sound.
    pub fn every_byte(&mut self, report: &mut Report, random: &mut Random) {
        for place in 0..LENGTH {
            for byte in 0..=u8::MAX {
                let mut message = random.symbols(STRAP.0, LENGTH);
                message[place] = byte;
                let _ = self.unpack(report, &message);
            }
        }
    }

    /// Messages of every length: packed with valid and invalid zones, unpacked with sound symbols and with one that is
    /// not, at each place.
    pub fn every_length(&mut self, report: &mut Report, random: &mut Random) {
        for length in 0..=GREATEST_LENGTH {
            for zone in [0, 1, 2, 3, 4, 5, 7, 8, 128, 255] {
                for rate in [0, 1, 27, 255] {
                    let _ = self.pack(report, &random.bytes(length), Record { rate, zone });
                }
            }
            let _ = self.unpack(report, &random.symbols(STRAP.0, length));
            for place in 0..length {
                let mut message = random.symbols(STRAP.0, length);
                message[place] = random.pick(&[4, 5, 7, 8, 128, 255]);
                let _ = self.unpack(report, &message);
            }
        }
    }

    /// Prints the counts; an answer never seen is a failure.
    pub fn finish(&self, report: &mut Report) {
        for counts in [&self.packed, &self.unpacked] {
            counts.print();
            counts.require_all(report);
        }
    }
}
