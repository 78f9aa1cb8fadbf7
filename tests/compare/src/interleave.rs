//! Groups of words rearranged and put back, compared: the answer and every byte of the source and of the target. Each
//! of the two calls must undo the other as well.

use common::calls;
use common::questions::CODES;
use common::random::Random;

use crate::check::{Counts, Guarded, Report};
use crate::interleave_cases::{self, Case};
use crate::interleave_model::{self, MOST_WORDS, NUMBERS, SUBJECTS};

/// The two calls.
#[derive(Clone, Copy, Debug, PartialEq, Eq)]
pub enum Way {
    Rearrange,
    PutBack,
}

const WAYS: [Way; 2] = [Way::Rearrange, Way::PutBack];

impl Way {
    /// The call that undoes this one.
    fn back(self) -> Way {
        match self {
            Way::Rearrange => Way::PutBack,
            Way::PutBack => Way::Rearrange,
        }
    }

    /// Calls the proved code with these slices.
    fn run(self, &Case { q, m, count, .. }: &Case, source: &[u8], target: &mut [u8]) -> u32 {
        match self {
            Way::Rearrange => calls::interleave(q, m, count, source, target),
            Way::PutBack => calls::deinterleave(q, m, count, source, target),
        }
    }

    /// What the model answers.
    fn due(self, &Case { q, m, count, ref source, ref target }: &Case) -> Result<Vec<u8>, u32> {
        match self {
            Way::Rearrange => interleave_model::rearrange(q, m, count, source, target.len()),
            Way::PutBack => interleave_model::put_back(q, m, count, source, target.len()),
        }
    }
}

/// What was seen of one of the calls.
struct Seen {
    name: &'static str,
    answers: Counts,
    undone: Counts,
    /// How often two questions and no other were answered no, the first of them in the row; on the diagonal, how often
    /// one alone.
    noes: [[u64; SUBJECTS.len()]; SUBJECTS.len()],
}

impl Seen {
    fn new(name: &'static str, undone: &'static str) -> Seen {
        let answers = Counts::new(name, &NUMBERS, &CODES);
        Seen { name, answers, undone: Counts::new(undone, &[], &CODES), noes: Default::default() }
    }

    fn count(&mut self, case: &Case, answer: u32) {
        self.answers.add((case.q, case.m), answer);
        let answers = interleave_model::answers(case.q, case.m, case.count, &case.source, case.target.len());
        let noes: Vec<usize> = (0..answers.len()).filter(|&question| !answers[question]).collect();
        if let [first] | [first, _] = noes[..] {
            self.noes[first][noes[noes.len() - 1]] += 1;
        }
    }

    /// Every answer must have been seen, and every question answered no, alone and beside each that comes after it.
    fn finish(&self, report: &mut Report) {
        for counts in [&self.answers, &self.undone] {
            counts.print();
            counts.require_all(report);
        }
        let alone: Vec<String> = (0..SUBJECTS.len()).map(|k| format!("{} {}", SUBJECTS[k], self.noes[k][k])).collect();
        println!("{} refused for one fault alone: {}", self.name, alone.join(", "));
        for (first, seen) in self.noes.iter().enumerate() {
            for (second, &seen) in seen.iter().enumerate().skip(first) {
                let subjects = (SUBJECTS[first], SUBJECTS[second]);
                report.require(seen > 0, || format!("{}: no case with these faults alone: {subjects:?}", self.name));
            }
        }
    }
}

/// The comparison of both calls.
pub struct Interleave {
    rearranged: Seen,
    put_back: Seen,
}

impl Interleave {
    pub fn new() -> Interleave {
        Interleave {
            rearranged: Seen::new("interleave", "interleave undone by deinterleave"),
            put_back: Seen::new("deinterleave", "deinterleave undone by interleave"),
        }
    }

    fn seen(&mut self, way: Way) -> &mut Seen {
        match way {
            Way::Rearrange => &mut self.rearranged,
            Way::PutBack => &mut self.put_back,
        }
    }

    /// Compares one call. Answers with what the proved code left in the target, or with its refusal.
    pub fn call(&mut self, report: &mut Report, way: Way, case: &Case) -> Result<Vec<u8>, u32> {
        let answer = way.due(case);
        let due = answer.as_ref().map_or_else(|&no| no, |_| calls::DONE);
        let due_target = answer.as_ref().unwrap_or(&case.target);
        let (a, b) = (report.cases as usize % 8, report.cases as usize / 8 % 8);
        let (mut source, mut target) = (Guarded::new(&case.source, a), Guarded::new(&case.target, b));
        let got = way.run(case, source.lend(), target.lend());
        let same_source = source == Guarded::new(&case.source, a);
        let same_target = target == Guarded::new(due_target, b);
        report.require(got == due && same_source && same_target, || {
            let left = target.content();
            format!(
                "{way:?} {case:?}\n  expected {due}, target {due_target:?}\n  got {got}, target {left:?}\n  \
                 source array as given: {same_source}, target array as expected: {same_target}"
            )
        });
        self.seen(way).count(case, answer.err().unwrap_or(0));
        report.cases += 1;
        if got == calls::DONE {
            Ok(target.content().to_vec())
        } else {
            Err(got)
        }
    }

    fn both(&mut self, report: &mut Report, case: &Case) {
        for way in WAYS {
            let _ = self.call(report, way, case);
        }
    }

    /// Groups of every number of words in every code, there and back by the proved code, from either side.
    pub fn every_group(&mut self, report: &mut Report, random: &mut Random, rounds: u32) {
        for (code, count) in groups() {
            for _ in 0..rounds {
                for way in WAYS {
                    let case = interleave_cases::any_group(random, code, count);
                    self.there_and_back(report, random, way, &case);
                }
            }
        }
    }

    fn there_and_back(&mut self, report: &mut Report, random: &mut Random, way: Way, case: &Case) {
        let code = (case.q, case.m);
        let moved = self.call(report, way, case).unwrap_or_default();
        let case_back = interleave_cases::sound(random, code, case.count, moved);
        let back = self.call(report, way.back(), &case_back);
        report.require(back.as_ref() == Ok(&case.source), || format!("{way:?} and back\n  {case:?}\n  got {back:?}"));
        self.seen(way).undone.add(code, 0);
    }

    /// Every small group; and, of every number of words in every code, groups that show where the symbol of each place
    /// goes, and that one outside the alphabet is seen.
    pub fn every_place(&mut self, report: &mut Report, random: &mut Random) {
        interleave_cases::every_source(random, |case| self.both(report, case));
        for (code, count) in groups() {
            interleave_cases::places_told_apart(random, code, count, |case| self.both(report, case));
            interleave_cases::outside_all_over(random, code, count, |case| self.both(report, case));
        }
    }

    /// Counts of words that no group has, and values of q and m that no code has.
    pub fn every_number(&mut self, report: &mut Report, random: &mut Random) {
        for code in CODES {
            interleave_cases::every_count(random, code, |case| self.both(report, case));
        }
        interleave_cases::every_code(random, |case| self.both(report, case));
    }

    /// Every combination of faults, in every code.
    pub fn every_fault(&mut self, report: &mut Report, random: &mut Random) {
        for code in CODES {
            interleave_cases::every_fault(random, code, |case| self.both(report, case));
        }
    }

    /// Random cases, with faults and without.
    pub fn random(&mut self, report: &mut Report, random: &mut Random, rounds: u32) {
        for _ in 0..rounds {
            let code = random.pick(&CODES);
            let way = random.pick(&WAYS);
            let _ = self.call(report, way, &interleave_cases::random_case(random, code));
        }
    }

    /// Prints the counts; an answer never seen is a failure.
    pub fn finish(&self, report: &mut Report) {
        self.rearranged.finish(report);
        self.put_back.finish(report);
    }
}

/// Every code with every number of words of a group.
pub fn groups() -> impl Iterator<Item = ((u32, u32), u32)> {
    CODES.into_iter().flat_map(|code| (1..=MOST_WORDS).map(move |count| (code, count)))
}
