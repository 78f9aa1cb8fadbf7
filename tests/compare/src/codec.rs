//! Encode and decode compared: one case at a time, every word and message of the small codes, and random cases.

use common::calls;
use common::questions::CODES;
use common::random::Random;

use crate::cases::{self, Case};
use crate::check::{compare, Call, Counts, Expected, Report};
use crate::model::{self, Model, Reading};

/// The codes whose words are all read.
const SMALL_CODES: [(u32, u32); 6] = [(2, 2), (2, 3), (2, 4), (4, 2), (4, 3), (8, 2)];

/// The comparison of encode and decode.
pub struct Codec<'a> {
    model: &'a Model,
    encoded: Counts,
    decoded: Counts,
    last_near: Counts,
}

impl Codec<'_> {
    pub fn new(model: &Model) -> Codec<'_> {
        Codec {
            model,
            encoded: Counts::new("encode", &[1, 2, 5, 6, 7], &CODES),
            decoded: Counts::new("decode", &[1, 2, 5, 7, 8, 9], &CODES),
            last_near: Counts::new("decode with wrong n/4 - 1", &[], &CODES),
        }
    }

    /// Compares one encode, in both forms. Answers what the model does.
    pub fn encode(&mut self, report: &mut Report, case: &Case) -> Result<Vec<u8>, u32> {
        let answer = model::encode(case.q, case.m, &case.message, case.word.len());
        let (message, word) = (&case.message, answer.as_ref().unwrap_or(&case.word));
        let number = |written| answer.as_ref().map_or_else(|&no| no.into(), |_| written);
        let expected = Expected { number: number(calls::WRITTEN), message, word };
        let call: Call = |q, m, message, word| calls::encode(q, m, message, word);
        compare(report, "encode", call, case, &expected);
        let expected = Expected { number: number(calls::DONE.into()), message, word };
        let call: Call = |q, m, message, word| calls::rm_write(q, m, message, word).into();
        compare(report, "rm_write", call, case, &expected);
        self.encoded.add((case.q, case.m), answer.as_ref().err().copied().unwrap_or(0));
        report.cases += 1;
        answer
    }

    /// Compares one decode, in both forms. Answers what the model does.
    pub fn decode(&mut self, report: &mut Report, case: &Case) -> Result<Reading, u32> {
        let answer = self.model.decode(case.q, case.m, case.message.len(), &case.word);
        let message = answer.as_ref().map_or(&case.message, |reading| &reading.message);
        let number = |read: fn(&Reading) -> u64| answer.as_ref().map_or_else(|&no| no.into(), read);
        let with_margin = number(|reading| calls::values(reading.wrong, reading.margin));
        let expected = Expected { number: with_margin, message, word: &case.word };
        let call: Call = |q, m, message, word| calls::decode(q, m, message, word);
        compare(report, "decode", call, case, &expected);
        let expected = Expected { number: number(|reading| (calls::DONE + reading.wrong).into()), ..expected };
        let call: Call = |q, m, message, word| calls::rm_read(q, m, message, word).into();
        compare(report, "rm_read", call, case, &expected);
        self.count_decoded(case, &answer);
        report.cases += 1;
        answer
    }

    fn count_decoded(&mut self, case: &Case, answer: &Result<Reading, u32>) {
        let code = (case.q, case.m);
        self.decoded.add(code, answer.as_ref().err().copied().unwrap_or(0));
        if answer.as_ref().is_ok_and(|reading| reading.wrong as usize + 1 == case.word.len() / 4) {
            self.last_near.add(code, 0);
        }
    }

    /// Every word of the small codes is read.
    pub fn every_word(&mut self, report: &mut Report) {
        for (q, m) in SMALL_CODES {
            let n = 1 << m;
            for number in 0..(q as usize).pow(n) {
                let word = model::symbols_of(q, n as usize, number);
                let message = vec![0xee; m as usize + 1];
                let _ = self.decode(report, &Case { q, m, message, word });
            }
        }
    }

    /// Every message of the codes that have few is written, and its word read back undamaged.
    pub fn every_message(&mut self, report: &mut Report) {
        for (q, m) in CODES {
            if model::message_count(q, m) > model::FEW_MESSAGES {
                continue;
            }
            for message in model::messages(q, m) {
                self.write_and_read(report, q, m, &message);
            }
        }
    }

    fn write_and_read(&mut self, report: &mut Report, q: u32, m: u32, message: &[u8]) {
        let case = Case { q, m, message: message.to_vec(), word: vec![0xee; 1 << m] };
        let word = self.encode(report, &case).expect("a sound message is written");
        let case = Case { q, m, message: vec![0xee; m as usize + 1], word };
        let margin = 1 << (m - 1);
        let undamaged = Reading { message: message.to_vec(), wrong: 0, margin };
        let read = self.decode(report, &case);
        report.require(read.as_ref() == Ok(&undamaged), || {
            format!("undamaged word\n  case {case:?}\n  expected {undamaged:?}\n  got {read:?}")
        });
    }

    /// Random cases, with faults and without.
    pub fn random(&mut self, report: &mut Report, random: &mut Random, encodes: u32, decodes: u32) {
        for _ in 0..encodes {
            let code = random.pick(&CODES);
            let _ = self.encode(report, &cases::encode_case(random, code));
        }
        for _ in 0..decodes {
            let code = random.pick(&CODES);
            let _ = self.decode(report, &cases::decode_case(random, code));
        }
    }

    /// In every code, words at each distance up to a quarter from a known codeword: below it that message is read,
    /// with the distance as wrong and a margin of at least n/2 - 2 * wrong; at the quarter the word is doubtful.
    pub fn up_to_the_quarter(&mut self, report: &mut Report, random: &mut Random, rounds: u32) {
        for (q, m) in CODES {
            for round in 0..rounds {
                let quarter = 1 << (m - 2);
                let count = if round % 2 == 0 { quarter } else { random.below(quarter) };
                let message = random.symbols(q, m as usize + 1);
                let word = cases::damaged(random, q, &message, count);
                let case = Case { q, m, message: random.bytes(m as usize + 1), word };
                let read = self.decode(report, &case);
                report.require(is_due(&read, &message, count as u32, m), || {
                    format!("{count} symbols altered of {message:?}\n  case {case:?}\n  got {read:?}")
                });
            }
        }
    }

    /// Prints the counts; an answer never seen is a failure.
    pub fn finish(&self, report: &mut Report) {
        for counts in [&self.encoded, &self.decoded, &self.last_near] {
            counts.print();
            counts.require_all(report);
        }
    }
}

/// Whether this is due for a word with `count` symbols altered, at most a quarter.
fn is_due(read: &Result<Reading, u32>, message: &[u8], count: u32, m: u32) -> bool {
    let n = 1 << m;
    match read {
        Ok(reading) => {
            let least = n / 2 - 2 * count;
            4 * count < n && reading.message == message && reading.wrong == count && reading.margin >= least
        }
        Err(number) => 4 * count == n && *number == 9,
    }
}
