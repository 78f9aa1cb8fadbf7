//! Buffers with guards, the count of answers, and the report of mismatches: what every comparison uses; and how one
//! call on a message and a word is compared, for encode, decode and near.

use std::fmt::Display;

use crate::cases::Case;

/// Places before and after a lent part.
const GUARD: usize = 64;

/// The comparison stops after so many mismatches.
const MOST_FAILURES: u32 = 5;

/// What a guarded array holds, told apart by its bits.
pub trait Cell: Copy {
    fn of_bits(bits: u32) -> Self;
    fn bits(self) -> u32;
}

impl Cell for u8 {
    fn of_bits(bits: u32) -> u8 {
        bits as u8
    }

    fn bits(self) -> u32 {
        self.into()
    }
}

impl Cell for u32 {
    fn of_bits(bits: u32) -> u32 {
        bits
    }

    fn bits(self) -> u32 {
        self
    }
}

impl Cell for f32 {
    fn of_bits(bits: u32) -> f32 {
        f32::from_bits(bits)
    }

    fn bits(self) -> u32 {
        self.to_bits()
    }
}

/// A larger array whose middle part is lent to a call. Outside it has a pattern.
pub struct Guarded<T> {
    cells: Vec<T>,
    start: usize,
    length: usize,
}

impl<T: Cell> Guarded<T> {
    /// The lent part has this content and starts `shift` places after the guard.
    pub fn new(content: &[T], shift: usize) -> Guarded<T> {
        let (start, length) = (GUARD + shift, content.len());
        let pattern = |place: usize| T::of_bits((place as u32).wrapping_mul(0x9e37_791d) ^ 0x5bd1_e9a5);
        let mut cells: Vec<T> = (0..start + length + GUARD).map(pattern).collect();
        cells[start..start + length].copy_from_slice(content);
        Guarded { cells, start, length }
    }

    pub fn lend(&mut self) -> &mut [T] {
        &mut self.cells[self.start..self.start + self.length]
    }

    pub fn content(&self) -> &[T] {
        &self.cells[self.start..self.start + self.length]
    }
}

impl<T: Cell> PartialEq for Guarded<T> {
    fn eq(&self, other: &Guarded<T>) -> bool {
        let same_place = (self.start, self.length) == (other.start, other.length);
        let pairs = self.cells.iter().zip(&other.cells);
        same_place && pairs.fold(true, |same, (a, b)| same & (a.bits() == b.bits()))
    }
}

/// How often a call gave each answer: place 0 for acceptance, place k for refusal k.
pub type Answers = [u64; 16];

/// The answers of one call, in all and for each code.
pub struct Counts {
    name: &'static str,
    questions: &'static [u32],
    all: Answers,
    codes: Vec<((u32, u32), Answers)>,
}

impl Counts {
    pub fn new(name: &'static str, questions: &'static [u32], codes: &[(u32, u32)]) -> Counts {
        let codes = codes.iter().map(|&code| (code, [0; 16])).collect();
        Counts { name, questions, all: [0; 16], codes }
    }

    /// Counts an acceptance (0) or a refusal by its number.
    pub fn add(&mut self, code: (u32, u32), answer: u32) {
        self.all[answer as usize] += 1;
        if let Some((_, answers)) = self.codes.iter_mut().find(|(known, _)| *known == code) {
            answers[answer as usize] += 1;
        }
    }

    /// One line: how often the call accepted, and how often it refused by each number.
    pub fn print(&self) {
        let accepted = if self.questions.is_empty() { "" } else { "accepted " };
        let refusals = self.questions.iter().map(|&k| format!(", refused with {k}: {}", self.all[k as usize]));
        println!("{}: {accepted}{}{}", self.name, self.all[0], refusals.collect::<String>());
    }

    /// Every answer of the call must have been seen, and those from question 4 on in every code.
    pub fn require_all(&self, report: &mut Report) {
        for &answer in [0].iter().chain(self.questions) {
            let seen = self.all[answer as usize];
            report.require(seen > 0, || format!("{}: answer {answer} never seen", self.name));
            for (code, answers) in self.codes.iter().filter(|_| answer == 0 || answer >= 4) {
                let seen = answers[answer as usize];
                report.require(seen > 0, || format!("{}: answer {answer} never seen for (q, m) = {code:?}", self.name));
            }
        }
    }
}

/// The number of cases and of mismatches.
#[derive(Default)]
pub struct Report {
    pub cases: u64,
    pub failures: u32,
}

impl Report {
    /// A mismatch is printed; after a few of them the program ends.
    pub fn require<T: Display>(&mut self, holds: bool, text: impl FnOnce() -> T) {
        if holds {
            return;
        }
        self.failures += 1;
        println!("MISMATCH {}", text());
        if self.failures >= MOST_FAILURES {
            println!("compare: failed, stopped after {MOST_FAILURES} mismatches");
            std::process::exit(1);
        }
    }
}

/// A call of the proved code on its two lent buffers.
pub type Call = fn(u32, u32, &mut [u8], &mut [u8]) -> u64;

/// What a call must answer and leave in its buffers.
pub struct Expected<'a> {
    pub number: u64,
    pub message: &'a [u8],
    pub word: &'a [u8],
}

/// Calls the proved code with guarded buffers, and compares its answer and every byte of both.
pub fn compare(report: &mut Report, name: &str, call: Call, case: &Case, expected: &Expected) {
    let (a, b) = (report.cases as usize % 8, report.cases as usize / 8 % 8);
    let mut message = Guarded::new(&case.message, a);
    let mut word = Guarded::new(&case.word, b);
    let number = call(case.q, case.m, message.lend(), word.lend());
    let same_message = message == Guarded::new(expected.message, a);
    let same_word = word == Guarded::new(expected.word, b);
    report.require(number == expected.number && same_message && same_word, || {
        let Expected { number: due, message: due_message, word: due_word } = expected;
        let (got_message, got_word) = (message.content(), word.content());
        format!(
            "{name}, q {}, m {}\n  message {:?}\n  word {:?}\n  \
             expected {due}, message after {due_message:?}, word after {due_word:?}\n  \
             got {number}, message after {got_message:?}, word after {got_word:?}\n  \
             message array as expected: {same_message}, word array as expected: {same_word}",
            case.q, case.m, case.message, case.word
        )
    });
}
