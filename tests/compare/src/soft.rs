//! One soft vote and the soft read compared: the answer, the sums by their bits, and every byte of the buffers. Whole
//! samples are voted on and read in integers as well.

use common::calls;
use common::questions::{COUNT_OF_M, GREATEST_M, LEAST_M};
use common::random::Random;

use crate::check::{Counts, Guarded, Report};
use crate::soft_cases::{self, Case};
use crate::soft_model::{self, Vote};

/// What the slice of both sums holds at entry, by its bits.
const ENTRY: [u32; 2] = [0xdead_beef, 0x1234_5678];

/// The votes by their decision: place 4 is unsure.
const DECISIONS: [&str; 5] =
    ["soft vote sure of 0", "soft vote sure of 1", "soft vote sure of 2", "soft vote sure of 3", "soft vote unsure"];

/// The comparison of both calls.
pub struct Soft {
    votes: Counts,
    decisions: [Counts; 5],
    reads: Counts,
    whole_votes: Counts,
    whole_reads: Counts,
}

impl Soft {
    pub fn new() -> Soft {
        let codes: Vec<(u32, u32)> = (LEAST_M..=GREATEST_M).map(|m| (4, m)).collect();
        let counts = |name, questions| Counts::new(name, questions, &codes);
        Soft {
            votes: counts("soft vote", &[2, 7, 10, 12]),
            decisions: DECISIONS.map(|name| counts(name, &[])),
            reads: counts("soft read", &[2, 5, 7, 10, 11]),
            whole_votes: counts("soft vote in integers too", &[]),
            whole_reads: counts("soft read in integers too", &[11]),
        }
    }

    fn vote(&mut self, report: &mut Report, case: &Case) {
        let answer = soft_model::vote(case.m, case.k, &case.re, &case.im);
        if let Ok(vote) = &answer {
            self.vote_whole(report, case, vote);
        }
        let number = answer.map_or_else(|no| no, |vote| calls::voted(vote.symbol));
        let sums_due = answer.map_or(ENTRY.map(f32::from_bits), |vote| vote.sums);
        let shift = report.cases as usize % 8;
        let mut sums = Guarded::new(&ENTRY.map(f32::from_bits), shift);
        let (mut re, mut im) = (Guarded::new(&case.re, shift), Guarded::new(&case.im, 7 - shift));
        let got = calls::soft_vote(case.m, case.k, re.lend(), im.lend(), sums.lend());
        let same_samples = re == Guarded::new(&case.re, shift) && im == Guarded::new(&case.im, 7 - shift);
        let same_sums = sums == Guarded::new(&sums_due, shift);
        report.require(got == number && same_samples && same_sums, || {
            let left = sums.content();
            format!(
                "soft vote {case:?}\n  expected {number}, sums {sums_due:?}\n  got {got}, sums {left:?}\n  \
                 samples as given: {same_samples}, sums array as expected: {same_sums}"
            )
        });
        self.votes.add((4, case.m), answer.err().unwrap_or(0));
        if let Ok(vote) = answer {
            self.decisions[decision(&vote)].add((4, case.m), 0);
        }
        report.cases += 1;
    }

    /// Where the samples are whole, integers give the same vote.
    fn vote_whole(&mut self, report: &mut Report, case: &Case, vote: &Vote) {
        let (Some(re), Some(im)) = (soft_model::wholes(&case.re), soft_model::wholes(&case.im)) else { return };
        let whole = soft_model::sound_vote(case.k, &re, &im);
        report.require(whole.is_same(vote), || format!("soft vote in f32 {vote:?}, in integers {whole:?}\n  {case:?}"));
        self.whole_votes.add((4, case.m), 0);
    }

    fn read(&mut self, report: &mut Report, case: &Case) {
        let answer = soft_model::read(case.m, case.message.len(), &case.re, &case.im);
        if let Ok(_) | Err(11) = &answer {
            self.read_whole(report, case, &answer);
        }
        let number = answer.as_ref().map_or_else(|&no| no, |_| calls::DONE);
        let due = answer.as_ref().unwrap_or(&case.message);
        let shift = report.cases as usize % 8;
        let mut message = Guarded::new(&case.message, shift);
        let (mut re, mut im) = (Guarded::new(&case.re, 7 - shift), Guarded::new(&case.im, shift));
        let got = calls::soft_read(case.m, message.lend(), re.lend(), im.lend());
        let same_samples = re == Guarded::new(&case.re, 7 - shift) && im == Guarded::new(&case.im, shift);
        let same_message = message == Guarded::new(due, shift);
        report.require(got == number && same_samples && same_message, || {
            let left = message.content();
            format!(
                "soft read {case:?}\n  expected {number}, message {due:?}\n  got {got}, message {left:?}\n  \
                 samples as given: {same_samples}, message array as expected: {same_message}"
            )
        });
        self.reads.add((4, case.m), answer.err().unwrap_or(0));
        report.cases += 1;
    }

    /// Where the samples are whole, integers give the same message.
    fn read_whole(&mut self, report: &mut Report, case: &Case, answer: &Result<Vec<u8>, u32>) {
        let (Some(re), Some(im)) = (soft_model::wholes(&case.re), soft_model::wholes(&case.im)) else { return };
        let whole = soft_model::sound_read(case.m, &re, &im).ok_or(11);
        report.require(*answer == whole, || format!("soft read in f32 {answer:?}, in integers {whole:?}\n  {case:?}"));
        self.whole_reads.add((4, case.m), whole.err().unwrap_or(0));
    }

    fn both(&mut self, report: &mut Report, case: &Case) {
        self.vote(report, case);
        self.read(report, case);
    }

    /// The read, and the votes for every coefficient.
    fn all(&mut self, report: &mut Report, case: &Case) {
        self.read(report, case);
        for k in 0..case.m {
            self.vote(report, &Case { k, ..case.clone() });
        }
    }

    /// Samples with parts on an edge: all of them alike, and one among ideal ones.
    pub fn edges(&mut self, report: &mut Report) {
        for m in LEAST_M..=GREATEST_M {
            soft_cases::edges(m, |case| self.all(report, case));
        }
    }

    /// Sums on the line of two thirds and to either side of it, and sums of equal magnitude.
    pub fn near_the_line(&mut self, report: &mut Report) {
        for pair in soft_cases::pairs_near_the_line() {
            for m in LEAST_M..=GREATEST_M {
                self.all(report, &soft_cases::alike(m, pair.0, pair.1));
                for k in 0..m {
                    self.both(report, &soft_cases::one_vote(m, k, 1.0, pair));
                    self.both(report, &soft_cases::one_vote(m, k, 127.0, pair));
                }
            }
        }
    }

    /// Sums so near the line that roundings decide: of one vote, and of the constant.
    pub fn on_the_line(&mut self, report: &mut Report, random: &mut Random, rounds: u32) {
        for round in 0..rounds {
            let m = each_m(round);
            let k = random.below(m as usize) as u32;
            let pair = soft_cases::pair_on_the_line(random);
            self.vote(report, &soft_cases::one_vote(m, k, 1.0, pair));
            let message = random.symbols(4, m as usize + 1);
            self.read(report, &soft_cases::constant_on_the_line(random, &message));
        }
    }

    /// The ideal samples of random messages, clean and with hiss. Clean ones read as their message.
    pub fn words(&mut self, report: &mut Report, random: &mut Random, rounds: u32) {
        for round in 0..rounds {
            let m = each_m(round);
            let message = random.symbols(4, m as usize + 1);
            let hiss = random.pick(&[0, 5, 29, 30, 60, 110, 127]);
            let whole = random.one_in(2);
            let case = soft_cases::word(random, &message, hiss, whole);
            if hiss == 0 {
                let read = soft_model::read(m, case.message.len(), &case.re, &case.im);
                report.require(read.as_ref() == Ok(&message), || {
                    format!("soft read of a clean word: {read:?}, {case:?}")
                });
            }
            self.all(report, &case);
        }
    }

    /// Random samples, with faults and without.
    pub fn random(&mut self, report: &mut Report, random: &mut Random, rounds: u32) {
        for _ in 0..rounds {
            self.both(report, &soft_cases::random(random));
        }
    }

    /// Prints the counts; an answer never seen is a failure.
    pub fn finish(&self, report: &mut Report) {
        let counts = [&self.votes, &self.reads, &self.whole_votes, &self.whole_reads];
        for counts in counts.into_iter().chain(&self.decisions) {
            counts.print();
            counts.require_all(report);
        }
    }
}

/// The place of a vote's decision in `DECISIONS`.
fn decision(vote: &Vote) -> usize {
    vote.symbol.map_or(4, usize::from)
}

/// One m after the other.
fn each_m(round: u32) -> u32 {
    LEAST_M + round % COUNT_OF_M as u32
}
