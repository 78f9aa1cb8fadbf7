//! Whole sessions in groups: the strap's words are rearranged group by group, turned by one number, altered in one run
//! of adjacent symbols, and put back before the launch receives them. The run leaves each word fewer than a quarter
//! altered or, at times, is longer by one symbol, so that one word of the group is doubtful if it is received. What
//! "Whole sessions" says of each slot is checked as for words that travel one by one.

use common::questions::CODES;
use common::random::Random;

use crate::bursts::Passage;
use crate::check::{Counts, Report};
use crate::interleave::{self, Interleave};
use crate::sessions::{Sessions, Slices};
use crate::whole::{Lists, Slot};

/// The slots of the launch by what became of them, and those read by what became of the slot before.
pub struct Groups {
    light: Counts,
    doubtful: Counts,
    missed: Counts,
    with_zone_sent: Counts,
    after_unread: Counts,
}

impl Groups {
    pub fn new() -> Groups {
        let counts = |name| Counts::new(name, &[], &CODES);
        Groups {
            light: counts("slots read from groups"),
            doubtful: counts("slots doubtful of groups"),
            missed: counts("slots missed of groups"),
            with_zone_sent: counts("slots read from groups with the zone sent"),
            after_unread: counts("slots read from groups after one missed or doubtful"),
        }
    }

    /// Sessions of so many groups, of every number of words in every code.
    pub fn lists(
        &mut self,
        sessions: &mut Sessions,
        interleave: &mut Interleave,
        report: &mut Report,
        random: &mut Random,
        groups: u32,
    ) {
        for (code, count) in interleave::groups() {
            let mut lists = Lists::open(sessions, report, random, code);
            for _ in 0..groups {
                let straps = send(&mut lists, sessions, report, random, count);
                let words: Vec<Vec<u8>> = straps.iter().map(|strap| strap.word.clone()).collect();
                let run = if random.one_in(4) { Passage::beyond } else { Passage::within };
                let passage = run(random, code, count, lists.turn);
                let words = passage.carry(interleave, report, random, &words);
                for (strap, word) in straps.into_iter().zip(words) {
                    lists.strap = strap;
                    let slot = lists.launch_slot(sessions, report, random, Some(word));
                    self.count(report, code, lists.before, slot);
                    lists.end_slot(slot);
                }
            }
        }
    }

    /// No word of a group has more than a quarter of its symbols altered. So it is read as it was sent or not at all:
    /// one that is read with a quarter altered is a mismatch.
    fn count(&mut self, report: &mut Report, code: (u32, u32), before: Option<Slot>, slot: Slot) {
        match slot {
            Slot::Light => self.light.add(code, 0),
            Slot::Doubtful => self.doubtful.add(code, 0),
            Slot::Missed => self.missed.add(code, 0),
            Slot::Heavy => report.require(false, || format!("{slot:?} slot of a group, (q, m) = {code:?}")),
        }
        match before {
            Some(Slot::Light) if slot == Slot::Light => self.with_zone_sent.add(code, 0),
            Some(before) if slot == Slot::Light && !before.is_read() => self.after_unread.add(code, 0),
            _ => {}
        }
    }

    /// Prints the counts; a kind of slot never seen is a failure.
    pub fn finish(&self, report: &mut Report) {
        let zones = [&self.with_zone_sent, &self.after_unread];
        for counts in [&self.light, &self.doubtful, &self.missed].into_iter().chain(zones) {
            counts.print();
            counts.require_all(report);
        }
    }
}

/// The strap as it is after each send of a group of so many words.
fn send(
    lists: &mut Lists,
    sessions: &mut Sessions,
    report: &mut Report,
    random: &mut Random,
    count: u32,
) -> Vec<Slices> {
    let sends = (0..count).map(|_| {
        lists.send(sessions, report, random);
        lists.strap.clone()
    });
    sends.collect()
}
