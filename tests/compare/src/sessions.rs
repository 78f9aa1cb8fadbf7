//! The calls of both sessions compared: after every call the answer, the session and every byte of the buffers. The
//! lists of calls here are on any session, sound or not; those of an honest strap and launch are in `whole`.

use common::calls;
use common::questions::CODES;
use common::random::Random;
use common::session::SLOTS;

use crate::cases;
use crate::check::{Counts, Guarded, Report};
use crate::model::Model;
use crate::session_model::{Received, Receiver, Sender, Unsound, NONE, PARTS};

/// Numbers of slots used around both ends of a session.
const USED: [u32; 10] = [0, 0, 1, 2, SLOTS - 2, SLOTS - 1, SLOTS - 1, SLOTS, SLOTS + 1, u32::MAX];

/// The slices lent to a call, with their content.
#[derive(Clone, Debug)]
pub struct Slices {
    pub session: [u32; 4],
    pub delivery: [u32; 4],
    pub message: Vec<u8>,
    pub word: Vec<u8>,
}

impl Slices {
    /// A session, and buffers that fit no code.
    pub fn new(session: [u32; 4]) -> Slices {
        Slices { session, delivery: [0xeeee_eeee; 4], message: Vec::new(), word: Vec::new() }
    }
}

/// The same slices with guards.
#[derive(PartialEq)]
struct Lent {
    session: Guarded<u32>,
    delivery: Guarded<u32>,
    message: Guarded<u8>,
    word: Guarded<u8>,
}

impl Lent {
    fn new(slices: &Slices, round: u64) -> Lent {
        let shift = |divisor| (round / divisor % 8) as usize;
        Lent {
            session: Guarded::new(&slices.session, shift(64)),
            delivery: Guarded::new(&slices.delivery, shift(512)),
            message: Guarded::new(&slices.message, shift(1)),
            word: Guarded::new(&slices.word, shift(8)),
        }
    }

    /// What the slices hold now.
    fn slices(&self) -> Slices {
        let numbers = |lent: &Guarded<u32>| lent.content().try_into().expect("four numbers");
        let (session, delivery) = (numbers(&self.session), numbers(&self.delivery));
        Slices { session, delivery, message: self.message.content().to_vec(), word: self.word.content().to_vec() }
    }
}

#[derive(Clone, Copy, Debug, PartialEq, Eq)]
pub enum Call {
    OpenSender(u32, u32),
    OpenReceiver(u32, u32),
    Send,
    Receive,
    Miss,
}

impl Call {
    /// The place of the call in the tables of counts.
    fn place(self) -> usize {
        match self {
            Call::OpenSender(..) => 0,
            Call::OpenReceiver(..) => 1,
            Call::Send => 2,
            Call::Receive => 3,
            Call::Miss => 4,
        }
    }

    /// Calls the proved code.
    fn run(self, Lent { session, delivery, message, word }: &mut Lent) -> u32 {
        match self {
            Call::OpenSender(q, m) => calls::open_sender(q, m, session.lend()),
            Call::OpenReceiver(q, m) => calls::open_receiver(q, m, session.lend()),
            Call::Send => calls::send(session.lend(), message.content(), word.lend()),
            Call::Receive => calls::receive(session.lend(), delivery.lend(), message.lend(), word.content()),
            Call::Miss => calls::miss(session.lend()),
        }
    }

    /// What the model answers, and the slices after it.
    fn due(self, model: &Model, before: &Slices) -> (u32, Slices) {
        let mut after = before.clone();
        let session = match self {
            Call::OpenSender(q, m) => Sender::open(q, m).map(|opened| opened.numbers()),
            Call::OpenReceiver(q, m) => Receiver::open(q, m).map(|opened| opened.numbers()),
            Call::Miss => Receiver::of(before.session).miss().map(|next| next.numbers()),
            Call::Send => Sender::of(before.session).send(&before.message, before.word.len()).map(|(next, word)| {
                after.word = word;
                next.numbers()
            }),
            Call::Receive => return due_receive(model, before, after),
        };
        match session {
            Ok(session) => (calls::DONE, Slices { session, ..after }),
            Err(number) => (number, after),
        }
    }
}

fn due_receive(model: &Model, before: &Slices, after: Slices) -> (u32, Slices) {
    match Receiver::of(before.session).receive(model, before.message.len(), &before.word) {
        Received::Read(next, delivery, message) => {
            let (session, delivery) = (next.numbers(), delivery.numbers());
            (calls::DONE, Slices { session, delivery, message, ..after })
        }
        Received::Doubtful(next) => (9, Slices { session: next.numbers(), ..after }),
        Received::Refused(number) => (number, after),
    }
}

/// The comparison of the sessions.
pub struct Sessions<'a> {
    model: &'a Model,
    calls: u64,
    answers: [Counts; 5],
    last_slot: [Counts; 3],
    zones: [Counts; 2],
    /// How often Send, Receive and Miss refused a session that fails one part of question 3 only.
    unsound: [[u64; 5]; 3],
}

impl Sessions<'_> {
    pub fn new(model: &Model) -> Sessions<'_> {
        let counts = |name, questions| Counts::new(name, questions, &CODES);
        let answers = [
            counts("open a sender", &[1, 2]),
            counts("open a receiver", &[1, 2]),
            counts("send", &[3, 4, 5, 6, 7]),
            counts("receive", &[3, 4, 5, 7, 8, 9]),
            counts("miss", &[3, 4]),
        ];
        let last_slot = ["send in the last slot", "receive in the last slot", "miss in the last slot"];
        let zones = ["receive with a zone", "receive with no zone"];
        Sessions {
            model,
            calls: 0,
            answers,
            last_slot: last_slot.map(|name| counts(name, &[])),
            zones: zones.map(|name| counts(name, &[])),
            unsound: [[0; 5]; 3],
        }
    }

    /// Compares one call. Leaves the slices as the proved code did, and gives its answer.
    pub fn call(&mut self, report: &mut Report, call: Call, slices: &mut Slices) -> u32 {
        let (due, after) = call.due(self.model, slices);
        let mut lent = Lent::new(slices, report.cases);
        let number = call.run(&mut lent);
        let same = lent == Lent::new(&after, report.cases);
        let left = lent.slices();
        report.require(number == due && same, || {
            format!(
                "{call:?}\n  given {slices:?}\n  expected {due}, {after:?}\n  got {number}, {left:?}\n  \
                 all arrays as expected: {same}"
            )
        });
        self.count(call, number, slices.session, &left);
        report.cases += 1;
        *slices = left;
        number
    }

    fn count(&mut self, call: Call, number: u32, session: [u32; 4], left: &Slices) {
        let code = match call {
            Call::OpenSender(q, m) | Call::OpenReceiver(q, m) => (q, m),
            _ => (session[0], session[1]),
        };
        self.calls += 1;
        self.answers[call.place()].add(code, if number == calls::DONE { 0 } else { number.min(15) });
        if call == Call::Receive && number == calls::DONE {
            self.zones[usize::from(left.delivery[0] == NONE)].add(code, 0);
        }
        let Some(place) = call.place().checked_sub(2) else { return };
        if number == calls::DONE && session[3] == SLOTS - 1 {
            self.last_slot[place].add(code, 0);
        }
        if number == 3 {
            self.count_unsound(place, session);
        }
    }

    fn count_unsound(&mut self, place: usize, session: [u32; 4]) {
        let unsound: Unsound = if place == 0 { Sender::of(session).unsound() } else { Receiver::of(session).unsound() };
        if unsound.iter().filter(|&&part| part).count() == 1 {
            let part = unsound.iter().position(|&part| part).expect("one part");
            self.unsound[place][part] += 1;
        }
    }

    /// Openings with every small q and m, and with random ones.
    pub fn openings(&mut self, report: &mut Report, random: &mut Random, rounds: u32) {
        let small = (0..20).flat_map(|q| (0..20).map(move |m| (q, m)));
        let codes: Vec<(u32, u32)> = small.chain((0..rounds).map(|_| any_code(random))).collect();
        for (q, m) in codes {
            for call in [Call::OpenSender(q, m), Call::OpenReceiver(q, m)] {
                let mut slices = Slices::new([(); 4].map(|()| random.next() as u32));
                self.call(report, call, &mut slices);
            }
        }
    }

    /// Lists of a few calls that start from any session: sends, or receives and misses, with faults and without.
    pub fn any_lists(&mut self, report: &mut Report, random: &mut Random, lists: u32) {
        for _ in 0..lists {
            let code = random.pick(&CODES);
            let mut slices = Slices::new(any_session(random, code));
            let sends = random.one_in(3);
            for _ in 0..=random.below(4) {
                let call = if sends { Call::Send } else { random.pick(&[Call::Receive, Call::Receive, Call::Miss]) };
                let case = if sends { cases::encode_case } else { cases::decode_case }(random, code);
                (slices.session[0], slices.session[1]) = (case.q, case.m);
                (slices.message, slices.word) = (case.message, case.word);
                self.call(report, call, &mut slices);
            }
        }
    }

    /// Prints the counts; an answer never seen is a failure.
    pub fn finish(&self, report: &mut Report) {
        println!("calls of the sessions: {}", self.calls);
        for counts in self.answers.iter().chain(&self.zones).chain(&self.last_slot) {
            counts.print();
            counts.require_all(report);
        }
        for (name, parts) in ["send", "receive", "miss"].iter().zip(self.unsound) {
            let parts: Vec<(&str, u64)> = PARTS.into_iter().zip(parts).collect();
            let texts: Vec<String> = parts.iter().map(|(part, seen)| format!("{part} {seen}")).collect();
            println!("{name} refused with 3 for one part alone: {}", texts.join(", "));
            for (part, seen) in parts {
                report.require(seen > 0, || format!("{name}: never refused with 3 for {part} alone"));
            }
        }
    }
}

/// q and m of a case for encode: sound, or one of them or both not.
fn any_code(random: &mut Random) -> (u32, u32) {
    let code = random.pick(&CODES);
    let case = cases::encode_case(random, code);
    (case.q, case.m)
}

/// Any session of this code: mostly sound, with its constant and its slots used around their limits.
fn any_session(random: &mut Random, (q, m): (u32, u32)) -> [u32; 4] {
    let constant = match random.below(8) {
        0 => random.pick(&[q - 1, q, q + 1, 255, 257, u32::MAX]),
        1 => random.next() as u32,
        2 | 3 => NONE,
        _ => random.below(q as usize) as u32,
    };
    let used = match random.below(4) {
        0 => random.next() as u32,
        1 => random.pick(&USED),
        _ => random.below(SLOTS as usize) as u32,
    };
    [q, m, constant, used]
}
