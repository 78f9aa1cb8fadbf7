//! Whole sessions: the list of an honest strap and that of a launch, both from their openings, with refused calls in
//! between. The strap's words are turned by one number and damaged. What "Whole sessions" says of each slot is checked
//! on what the proved code answered, besides the comparison with the model.

use common::calls::DONE;
use common::questions::{CODES, STRAP};
use common::random::{turned, Random};
use common::session::{slot_time, SLOTS};

use crate::cases;
use crate::check::{Counts, Report};
use crate::model;
use crate::session_model::NONE;
use crate::sessions::{Call, Sessions, Slices};

/// What became of a slot of the launch: fewer than a quarter of the symbols altered, read in spite of heavier damage,
/// doubtful, or missed.
#[derive(Clone, Copy, Debug, PartialEq, Eq)]
pub enum Slot {
    Light,
    Heavy,
    Doubtful,
    Missed,
}

impl Slot {
    pub fn is_read(self) -> bool {
        matches!(self, Slot::Light | Slot::Heavy)
    }
}

/// A strap and a launch with the slots so far.
pub struct Lists {
    q: u32,
    m: u32,
    pub turn: u8,
    /// As it was when it had sent the word of the launch's slot.
    pub strap: Slices,
    launch: Slices,
    sent: u32,
    slot: u32,
    pub before: Option<Slot>,
}

/// The slots of the launch by what became of them, and those whose zone the claim speaks of.
pub struct Whole {
    light: Counts,
    heavy: Counts,
    unread: Counts,
    with_zone_sent: Counts,
    after_heavy: Counts,
}

impl Whole {
    pub fn new() -> Whole {
        let counts = |name| Counts::new(name, &[], &CODES);
        Whole {
            light: counts("slots with fewer than a quarter altered"),
            heavy: counts("slots read in spite of heavier damage"),
            unread: counts("slots missed or doubtful"),
            with_zone_sent: counts("slots with the zone sent"),
            after_heavy: counts("slots read after heavier damage"),
        }
    }

    /// Lists of so many slots in every code.
    pub fn lists(&mut self, sessions: &mut Sessions, report: &mut Report, random: &mut Random, lists: u32, slots: u32) {
        for code in CODES {
            for _ in 0..lists {
                self.list(sessions, report, random, code, slots);
            }
        }
    }

    /// A full session of the strap's code; after it every call is refused with 4, again and again.
    pub fn full(&mut self, sessions: &mut Sessions, report: &mut Report, random: &mut Random) {
        let mut lists = self.list(sessions, report, random, STRAP, SLOTS);
        for _ in 0..3 {
            let sent = sessions.call(report, Call::Send, &mut lists.strap);
            let missed = sessions.call(report, Call::Miss, &mut lists.launch);
            let received = sessions.call(report, Call::Receive, &mut lists.launch);
            let answers = [sent, missed, received];
            report.require(answers == [4; 3], || format!("after {SLOTS} slots: {answers:?}, not 4"));
        }
    }

    fn list(
        &mut self,
        sessions: &mut Sessions,
        report: &mut Report,
        random: &mut Random,
        code: (u32, u32),
        slots: u32,
    ) -> Lists {
        let mut lists = Lists::open(sessions, report, random, code);
        for _ in 0..slots {
            lists.send(sessions, report, random);
            let slot = lists.launch_slot(sessions, report, random, None);
            self.count(&lists, slot);
            lists.end_slot(slot);
        }
        lists
    }

    fn count(&mut self, lists: &Lists, slot: Slot) {
        let code = (lists.q, lists.m);
        match slot {
            Slot::Light => self.light.add(code, 0),
            Slot::Heavy => self.heavy.add(code, 0),
            Slot::Doubtful | Slot::Missed => self.unread.add(code, 0),
        }
        match lists.before {
            Some(Slot::Light) if slot == Slot::Light => self.with_zone_sent.add(code, 0),
            Some(Slot::Heavy) if slot.is_read() => self.after_heavy.add(code, 0),
            _ => {}
        }
    }

    /// Prints the counts; a kind of slot never seen is a failure.
    pub fn finish(&self, report: &mut Report) {
        for counts in [&self.light, &self.heavy, &self.unread, &self.with_zone_sent, &self.after_heavy] {
            counts.print();
            counts.require_all(report);
        }
    }
}

impl Lists {
    /// Both sessions opened in this code, with a turn for all slots.
    pub fn open(sessions: &mut Sessions, report: &mut Report, random: &mut Random, (q, m): (u32, u32)) -> Lists {
        let (mut strap, mut launch) = (Slices::new([7; 4]), Slices::new([7; 4]));
        let opened = sessions.call(report, Call::OpenSender(q, m), &mut strap);
        let both = opened == DONE && sessions.call(report, Call::OpenReceiver(q, m), &mut launch) == DONE;
        report.require(both, || format!("sessions of q {q}, m {m} not opened"));
        let turn = random.below(q as usize) as u8;
        Lists { q, m, turn, strap, launch, sent: 0, slot: 0, before: None }
    }

    /// The strap sends the next word, at times after a call that is refused.
    pub fn send(&mut self, sessions: &mut Sessions, report: &mut Report, random: &mut Random) {
        if random.one_in(4) {
            self.fill_strap(random);
            refuse(sessions, report, random, Call::Send, &mut self.strap);
        }
        self.fill_strap(random);
        let number = sessions.call(report, Call::Send, &mut self.strap);
        report.require(number == DONE, || format!("slot {} not sent: {number}, {:?}", self.sent, self.strap));
        self.sent += 1;
    }

    fn fill_strap(&mut self, random: &mut Random) {
        self.strap.message = random.symbols(self.q, self.m as usize + 1);
        self.strap.word = random.bytes(1 << self.m);
    }

    /// The word that the strap sent last, turned.
    fn turned(&self) -> Vec<u8> {
        turned(self.q, &self.strap.word, self.turn)
    }

    /// The launch misses the slot or receives the word, as it arrived or, where that is not given, with damage; at
    /// times after a call that is refused.
    pub fn launch_slot(
        &mut self,
        sessions: &mut Sessions,
        report: &mut Report,
        random: &mut Random,
        arrived: Option<Vec<u8>>,
    ) -> Slot {
        self.fill_launch(random);
        if random.one_in(4) {
            refuse(sessions, report, random, Call::Receive, &mut self.launch);
            self.fill_launch(random);
        }
        if let Some(word) = arrived {
            self.launch.word = word;
        }
        if random.one_in(8) {
            let number = sessions.call(report, Call::Miss, &mut self.launch);
            report.require(number == DONE, || format!("slot {} not missed: {number}", self.slot));
            return Slot::Missed;
        }
        let reference = self.launch.session[2];
        let number = sessions.call(report, Call::Receive, &mut self.launch);
        self.check(report, number, reference)
    }

    fn fill_launch(&mut self, random: &mut Random) {
        let (q, n) = (self.q, 1 << self.m);
        let mut message = self.strap.message.clone();
        message[0] = self.turned()[0];
        let count = if random.one_in(2) { random.below(n / 4) } else { cases::damage_count(random, n) };
        self.launch.message = random.bytes(self.m as usize + 1);
        self.launch.word = cases::damaged(random, q, &message, count);
    }

    /// The launch goes on to the next slot.
    pub fn end_slot(&mut self, slot: Slot) {
        self.before = Some(slot);
        self.slot += 1;
    }

    /// What "Whole sessions" says of a slot whose word was received with this answer, the reference held before.
    fn check(&self, report: &mut Report, number: u32, reference: u32) -> Slot {
        let altered = model::distance(&self.turned(), &self.launch.word);
        let light = 4 * altered < 1 << self.m;
        let holds = match number {
            DONE => self.is_due(reference) && (!light || self.is_due_light(altered)),
            9 => !light,
            _ => false,
        };
        let holds = holds && self.launch.session[3] == self.slot + 1;
        report.require(holds, || {
            let (slot, before, turn) = (self.slot, self.before, self.turn);
            format!(
                "whole session, slot {slot} after {before:?}, turn {turn}, {altered} altered, answer {number}\n  \
                 strap {:?}\n  launch {:?}",
                self.strap, self.launch
            )
        });
        match number {
            DONE if light => Slot::Light,
            DONE => Slot::Heavy,
            _ => Slot::Doubtful,
        }
    }

    /// What is due of every accepted receive.
    fn is_due(&self, reference: u32) -> bool {
        let [zone, _, _, time] = self.launch.delivery;
        let symbol = u32::from(self.launch.message[0]);
        let constant = self.launch.session[2];
        let due_zone = match self.before {
            None | Some(Slot::Doubtful | Slot::Missed) => zone == NONE && symbol == 0,
            _ => zone == constant.wrapping_sub(reference) % self.q && symbol == zone,
        };
        due_zone && time == slot_time(self.slot)
    }

    /// What is due where fewer than a quarter of the symbols were altered.
    fn is_due_light(&self, altered: u32) -> bool {
        let (sent, got) = (&self.strap.message, &self.launch.message);
        let wrong = self.launch.delivery[1];
        let zone_sent = self.before != Some(Slot::Light) || got[0] == sent[0];
        wrong == altered && got[1..] == sent[1..] && zone_sent
    }
}

/// Calls with a length or a symbol that is refused. The comparison sees that the session is left.
fn refuse(sessions: &mut Sessions, report: &mut Report, random: &mut Random, call: Call, slices: &mut Slices) {
    let Slices { session, message, word, .. } = slices;
    let (q, lengths) = (session[0], (message.len(), word.len()));
    match random.below(3) {
        0 => cases::spoil_symbols(random, q, if call == Call::Send { message } else { word }),
        1 => {
            while message.len() == lengths.0 {
                cases::spoil_length(random, message);
            }
        }
        _ => {
            while word.len() == lengths.1 {
                cases::spoil_length(random, word);
            }
        }
    }
    let number = sessions.call(report, call, slices);
    report.require((5..=8).contains(&number), || format!("{call:?} not refused: {number}, {slices:?}"));
}
