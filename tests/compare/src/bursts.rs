//! Bursts: a group of words is rearranged, the symbols of one run of adjacent places are altered, and the group is put
//! back. A run of at most n/4 - 1 symbols for each word leaves every word near its message, so all are read. Every
//! call is one of the proved code.

use std::ops::Range;

use common::calls;
use common::questions::CODES;
use common::random::{alter, turned, Random};

use crate::check::{Counts, Report};
use crate::interleave::{self, Interleave, Way};
use crate::interleave_cases::{self, FEW_PLACES};
use crate::model;

/// What every byte of a lent slice is.
const LENT: u8 = 0xee;

/// How a group travels: its code, how many words it has, by what all its symbols are turned, and the run of places
/// whose symbols are altered.
#[derive(Debug)]
pub struct Passage {
    code: (u32, u32),
    count: u32,
    turn: u8,
    run: Range<usize>,
}

impl Passage {
    /// A run of at most the longest, which is often taken.
    pub fn within(random: &mut Random, code: (u32, u32), count: u32, turn: u8) -> Passage {
        let longest = longest(code.1, count);
        let length = if random.one_in(2) { longest } else { random.below(longest + 1) };
        Passage::of_length(random, code, count, turn, length)
    }

    /// A run longer by one symbol than the longest: one word has a quarter of its places altered, the others fewer.
    pub fn beyond(random: &mut Random, code: (u32, u32), count: u32, turn: u8) -> Passage {
        let length = longest(code.1, count) + 1;
        Passage::of_length(random, code, count, turn, length)
    }

    /// A run of this length at the start of the group, at its end or anywhere.
    fn of_length(random: &mut Random, code: (u32, u32), count: u32, turn: u8, length: usize) -> Passage {
        let last = places(code.1, count) - length;
        let start = match random.below(4) {
            0 => 0,
            1 => last,
            _ => random.below(last + 1),
        };
        Passage { code, count, turn, run: start..start + length }
    }

    /// The words as they arrive: rearranged, turned, altered and put back.
    pub fn carry(
        &self,
        interleave: &mut Interleave,
        report: &mut Report,
        random: &mut Random,
        words: &[Vec<u8>],
    ) -> Vec<Vec<u8>> {
        let (q, m) = self.code;
        let group = self.moved(interleave, report, random, Way::Rearrange, words.concat());
        let mut group = turned(q, &group, self.turn);
        for symbol in &mut group[self.run.clone()] {
            alter(q, symbol, random.error(q));
        }
        let group = self.moved(interleave, report, random, Way::PutBack, group);
        let received: Vec<Vec<u8>> = group.chunks(1 << m).map(<[u8]>::to_vec).collect();
        self.check(report, words, &received);
        received
    }

    fn moved(
        &self,
        interleave: &mut Interleave,
        report: &mut Report,
        random: &mut Random,
        way: Way,
        source: Vec<u8>,
    ) -> Vec<u8> {
        let case = interleave_cases::sound(random, self.code, self.count, source);
        interleave.call(report, way, &case).expect("a sound group is accepted")
    }

    /// The altered places are as many as the run has. It takes the words in turn, so no word has two more than another.
    fn check(&self, report: &mut Report, words: &[Vec<u8>], received: &[Vec<u8>]) {
        let (q, pairs) = (self.code.0, words.iter().zip(received));
        let altered: Vec<u32> = pairs.map(|(sent, got)| model::distance(&turned(q, sent, self.turn), got)).collect();
        let (length, count) = (self.run.len() as u32, self.count);
        let share = length / count..=length.div_ceil(count);
        let holds = altered.iter().sum::<u32>() == length && altered.iter().all(|places| share.contains(places));
        report.require(holds, || format!("{self:?}, altered in each word {altered:?}\n  {words:?}\n  {received:?}"));
    }
}

/// The places of a group.
fn places(m: u32, count: u32) -> usize {
    (count as usize) << m
}

/// The length of the longest run that leaves each word of a group with fewer than a quarter of its places altered.
fn longest(m: u32, count: u32) -> usize {
    count as usize * ((1 << m) / 4 - 1)
}

/// A word of a group: its message, how many of its places are altered, what the proved code answers to it, and what it
/// leaves in the message.
#[derive(Debug)]
struct Arrived {
    message: Vec<u8>,
    altered: u32,
    number: u64,
    read: Vec<u8>,
}

impl Arrived {
    /// With fewer than a quarter of its places altered it reads as its message, with wrong their number. Else it is
    /// doubtful, and the message is left as it was lent.
    fn check(&self, report: &mut Report, passage: &Passage) {
        let Arrived { message, altered, number, read } = self;
        let holds = if 4 * altered < 1 << passage.code.1 {
            let due = calls::values(*altered, 0)..calls::values(altered + 1, 0);
            due.contains(number) && read == message
        } else {
            *number == 9 && read.iter().all(|&byte| byte == LENT)
        };
        report.require(holds, || format!("{passage:?}\n  {self:?}"));
    }
}

/// The groups by the run that was altered.
pub struct Bursts {
    read: Counts,
    longest: Counts,
    at_the_start: Counts,
    at_the_end: Counts,
    quarter: Counts,
    doubtful: Counts,
}

impl Bursts {
    pub fn new() -> Bursts {
        let counts = |name| Counts::new(name, &[], &CODES);
        Bursts {
            read: counts("groups read after a burst"),
            longest: counts("groups read after a longest burst"),
            at_the_start: counts("groups read after a burst at the start"),
            at_the_end: counts("groups read after a burst at the end"),
            quarter: counts("words with a quarter altered, the burst longer by one symbol"),
            doubtful: counts("words doubtful, the burst longer by one symbol"),
        }
    }

    /// Bursts in groups of every number of words in every code: within the limit, and longer by one symbol.
    pub fn random(&mut self, interleave: &mut Interleave, report: &mut Report, random: &mut Random, rounds: u32) {
        for (code, count) in interleave::groups() {
            for _ in 0..rounds {
                let passage = Passage::within(random, code, count, 0);
                self.within(interleave, report, random, &passage);
                let passage = Passage::beyond(random, code, count, 0);
                self.beyond(interleave, report, random, &passage);
            }
        }
    }

    /// The longest bursts from every place, in the groups with few of them.
    pub fn every_start(&mut self, interleave: &mut Interleave, report: &mut Report, random: &mut Random) {
        for (code, count) in interleave::groups().filter(|&((_, m), count)| places(m, count) <= FEW_PLACES) {
            let length = longest(code.1, count);
            for start in 0..=places(code.1, count) - length {
                let passage = Passage { code, count, turn: 0, run: start..start + length };
                self.within(interleave, report, random, &passage);
            }
        }
    }

    /// Each word reads as its message, with wrong the number of its altered places.
    fn within(&mut self, interleave: &mut Interleave, report: &mut Report, random: &mut Random, passage: &Passage) {
        for arrived in arrive(interleave, report, random, passage) {
            arrived.check(report, passage);
        }
        self.count(passage);
    }

    fn count(&mut self, Passage { code, count, run, .. }: &Passage) {
        let (m, count) = (code.1, *count);
        self.read.add(*code, 0);
        if run.len() == longest(m, count) {
            self.longest.add(*code, 0);
        }
        if run.start == 0 {
            self.at_the_start.add(*code, 0);
        }
        if run.end == places(m, count) {
            self.at_the_end.add(*code, 0);
        }
    }

    /// Each word is as due. Counts those with a quarter of their places altered, and those that are doubtful.
    fn beyond(&mut self, interleave: &mut Interleave, report: &mut Report, random: &mut Random, passage: &Passage) {
        let code = passage.code;
        for arrived in arrive(interleave, report, random, passage) {
            arrived.check(report, passage);
            if 4 * arrived.altered == 1 << code.1 {
                self.quarter.add(code, 0);
            }
            if arrived.number == 9 {
                self.doubtful.add(code, 0);
            }
        }
    }

    /// Prints the counts; a kind of burst never seen is a failure.
    pub fn finish(&self, report: &mut Report) {
        let read = [&self.read, &self.longest, &self.at_the_start, &self.at_the_end];
        for counts in read.into_iter().chain([&self.quarter, &self.doubtful]) {
            counts.print();
            counts.require_all(report);
        }
    }
}

/// The words of random messages, written, carried by this passage and read.
fn arrive(interleave: &mut Interleave, report: &mut Report, random: &mut Random, passage: &Passage) -> Vec<Arrived> {
    let (q, m) = passage.code;
    let messages: Vec<Vec<u8>> = (0..passage.count).map(|_| random.symbols(q, m as usize + 1)).collect();
    let written: Vec<Vec<u8>> = messages.iter().map(|message| encode(report, passage.code, message)).collect();
    let words = passage.carry(interleave, report, random, &written);
    let arrived = messages.into_iter().zip(written.iter().zip(&words)).map(|(message, (written, word))| {
        let (number, read) = decode(passage.code, word);
        Arrived { message, altered: model::distance(written, word), number, read }
    });
    arrived.collect()
}

/// The word that the proved code writes. What is due of these words is known without the model, and to compare them
/// with it as well, as `Codec` does, makes the whole run about a quarter longer.
fn encode(report: &mut Report, (q, m): (u32, u32), message: &[u8]) -> Vec<u8> {
    let mut word = vec![LENT; 1 << m];
    let number = calls::encode(q, m, message, &mut word);
    report.require(number == calls::WRITTEN, || format!("{message:?} with q {q} not written: {number}"));
    word
}

/// What the proved code answers, and leaves in the message. It is not compared with the model, as for `encode`.
fn decode((q, m): (u32, u32), word: &[u8]) -> (u64, Vec<u8>) {
    let mut message = vec![LENT; m as usize + 1];
    let number = calls::decode(q, m, &mut message, word);
    (number, message)
}
