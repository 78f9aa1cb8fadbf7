//! Near compared: the answer and every byte of both buffers, which stay as they are. Where the distance of a word is
//! known, and where decode says which message it reads, the answer must fit that as well.

use common::calls;
use common::questions::{all_below, ALPHABETS, CODES, LEAST_M};
use common::random::{alter, Random};

use crate::cases::{self, Case};
use crate::check::{compare, Call, Counts, Expected, Report};
use crate::model;
use crate::near_cases::{self, Places, Symbols};

/// So many random messages are held against each word that decode is given.
const OTHER_MESSAGES: usize = 8;

/// The comparison of near.
pub struct Near {
    asked: Counts,
    yes: Counts,
    no: Counts,
    outside: Counts,
    decoded: Counts,
}

impl Near {
    pub fn new() -> Near {
        let counts = |name, questions| Counts::new(name, questions, &CODES);
        Near {
            asked: counts("near", &[1, 2, 5, 6, 7]),
            yes: counts("near answered yes", &[]),
            no: counts("near answered no", &[]),
            outside: counts("near with symbols outside the alphabet", &[]),
            decoded: counts("decode beside near", &[9]),
        }
    }

    /// Compares one near. Answers what the model does.
    fn near(&mut self, report: &mut Report, case: &Case) -> Result<bool, u32> {
        let answer = model::near(case.q, case.m, &case.message, &case.word);
        let number = answer.map_or_else(|no| no, |near| if near { calls::NEAR } else { calls::NOT_NEAR });
        let expected = Expected { number: number.into(), message: &case.message, word: &case.word };
        let call: Call = |q, m, message, word| calls::near(q, m, message, word).into();
        compare(report, "near", call, case, &expected);
        self.count(case, answer);
        report.cases += 1;
        answer
    }

    fn count(&mut self, case: &Case, answer: Result<bool, u32>) {
        let code = (case.q, case.m);
        self.asked.add(code, answer.err().unwrap_or(0));
        let Ok(near) = answer else { return };
        let answered = if near { &mut self.yes } else { &mut self.no };
        answered.add(code, 0);
        if !all_below(case.q, &case.word) {
            self.outside.add(code, 0);
        }
    }

    /// Every message of the codes with four places beside every word of four symbols from 0 to q, of which q is outside
    /// the alphabet.
    pub fn every_word(&mut self, report: &mut Report) {
        let (m, n) = (LEAST_M, 1 << LEAST_M);
        for q in ALPHABETS {
            for number in 0..(q as usize + 1).pow(n) {
                let word = model::symbols_of(q + 1, n as usize, number);
                for message in model::messages(q, m) {
                    let _ = self.near(report, &Case { q, m, message, word: word.clone() });
                }
            }
        }
    }

    /// In every code, words at chosen distances from the codeword of the message, altered in every way.
    pub fn around_the_quarter(&mut self, report: &mut Report, random: &mut Random, rounds: u32) {
        for code in CODES {
            for way in near_cases::ways() {
                for _ in 0..rounds {
                    self.at_each_distance(report, random, code, way);
                }
            }
        }
    }

    /// A message is near while fewer than a quarter of the symbols are altered, and not from there on.
    fn at_each_distance(
        &mut self,
        report: &mut Report,
        random: &mut Random,
        (q, m): (u32, u32),
        way: (Places, Symbols),
    ) {
        let n = 1 << m;
        for count in near_cases::distances(random, n) {
            let message = random.symbols(q, m as usize + 1);
            let word = near_cases::altered(random, q, &message, count, way);
            let case = Case { q, m, message, word };
            let near = self.near(report, &case);
            report.require(near == Ok(4 * count < n), || {
                format!("{count} symbols altered, {way:?}\n  case {case:?}\n  got {near:?}")
            });
        }
    }

    /// In every code, damaged words: the message that decode reads is near, and no other is.
    pub fn beside_decode(&mut self, report: &mut Report, random: &mut Random, rounds: u32) {
        for (q, m) in CODES {
            for _ in 0..rounds {
                let sent = random.symbols(q, m as usize + 1);
                let count = cases::damage_count(random, 1 << m);
                let word = cases::damaged(random, q, &sent, count);
                let read = self.decode(q, m, &word);
                for message in messages(random, q, m, &sent).into_iter().chain(read.clone()) {
                    let case = Case { q, m, message, word: word.clone() };
                    let near = self.near(report, &case);
                    report.require(near == Ok(read.as_ref() == Some(&case.message)), || {
                        format!("decode reads {read:?}\n  case {case:?}\n  got {near:?}")
                    });
                }
            }
        }
    }

    /// The message that the proved code reads the word as, or none where the word is doubtful.
    fn decode(&mut self, q: u32, m: u32, word: &[u8]) -> Option<Vec<u8>> {
        let mut message = vec![0xee; m as usize + 1];
        let number = calls::decode(q, m, &mut message, word);
        self.decoded.add((q, m), if number == 9 { 9 } else { 0 });
        (number != 9).then_some(message)
    }

    /// Every combination of faults, in every code.
    pub fn every_fault(&mut self, report: &mut Report, random: &mut Random) {
        for code in CODES {
            near_cases::every_fault(random, code, |case| {
                let _ = self.near(report, case);
            });
        }
    }

    /// Random cases, with faults and without.
    pub fn random(&mut self, report: &mut Report, random: &mut Random, rounds: u32) {
        for _ in 0..rounds {
            let code = random.pick(&CODES);
            let _ = self.near(report, &near_cases::random_case(random, code));
        }
    }

    /// Prints the counts; an answer never seen is a failure.
    pub fn finish(&self, report: &mut Report) {
        for counts in [&self.asked, &self.yes, &self.no, &self.outside, &self.decoded] {
            counts.print();
            counts.require_all(report);
        }
    }
}

/// The messages held against a word: all those of a code with four places; in the other codes the one sent, one that
/// differs from it in a single symbol, and random ones.
fn messages(random: &mut Random, q: u32, m: u32, sent: &[u8]) -> Vec<Vec<u8>> {
    if m == LEAST_M {
        return model::messages(q, m).collect();
    }
    let mut beside = sent.to_vec();
    alter(q, &mut beside[random.below(sent.len())], random.error(q));
    let others = (0..OTHER_MESSAGES).map(|_| random.symbols(q, sent.len()));
    [sent.to_vec(), beside].into_iter().chain(others).collect()
}
