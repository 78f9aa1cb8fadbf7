//! The worked examples of words written and read (docs/REQUIREMENTS.md: Worked examples, Session list), by its numbers.

use crate::cases::Case;
use crate::check::Report;
use crate::codec::Codec;
use crate::model::{self, Reading};

/// q, the message, and the word that it writes.
const WRITTEN: [(u32, &str, &str); 4] = [
    (4, "11302", "1201120130233023"),
    (8, "7501", "74740505"),
    (4, "31302", "3023302312011201"),
    (4, "21302", "2312231201300130"),
];

/// q, the word, the message that it reads as, wrong, and the margin where the example gives one.
const READ: [(u32, &str, &str, u32, Option<u32>); 8] = [
    (4, "1201120130233023", "11302", 0, Some(8)),
    (4, "1211120130233021", "11302", 2, Some(5)),
    (8, "74740505", "7501", 0, None),
    (8, "74700505", "7501", 1, Some(2)),
    (2, "0110", "011", 0, Some(2)),
    (4, "1110000000000000", "00000", 3, None),
    (4, "3023302312011201", "31302", 0, Some(8)),
    (4, "2312231201300130", "21302", 0, Some(8)),
];

/// q and the words that are doubtful.
const DOUBTFUL: [(u32, &str); 3] = [(2, "0001"), (4, "1111000000000000"), (4, "0001000100010001")];

/// q and m of a write, and the answer. The buffers fit m.
const CODES: [(u32, u32, Result<(), u32>); 4] = [(3, 9, Err(1)), (4, 9, Err(2)), (4, 1, Err(2)), (4, 2, Ok(()))];

fn digits(text: &str) -> Vec<u8> {
    text.bytes().map(|digit| digit - b'0').collect()
}

/// The m of a word: its length is 2^m.
fn m_of(word: &[u8]) -> u32 {
    word.len().ilog2()
}

/// A decode of this word into a message buffer of the right length.
fn decode_case(q: u32, word: &str) -> Case {
    let word = digits(word);
    let m = m_of(&word);
    Case { q, m, message: vec![0xee; m as usize + 1], word }
}

pub fn run(codec: &mut Codec, report: &mut Report) {
    written(codec, report);
    read(codec, report);
    doubtful(codec, report);
    for (q, m, due) in CODES {
        let case = Case { q, m, message: vec![0; m as usize + 1], word: vec![0xee; 1 << m] };
        let answer = codec.encode(report, &case).map(|_| ());
        report.require(answer == due, || format!("write with q {q} and m {m}: {answer:?}, not {due:?}"));
    }
    let word = digits("1211120130233021");
    let votes: Vec<u8> = (0..8).map(|i| model::vote(4, &word, 3, i)).collect();
    report.require(votes == digits("22122220"), || format!("votes for a_3: {votes:?}"));
}

fn written(codec: &mut Codec, report: &mut Report) {
    for (q, message, word) in WRITTEN {
        let (message, word) = (digits(message), digits(word));
        let case = Case { q, m: m_of(&word), message, word: vec![0xee; word.len()] };
        let answer = codec.encode(report, &case);
        report.require(answer.as_ref() == Ok(&word), || format!("{case:?}: {answer:?}, not {word:?}"));
    }
}

fn read(codec: &mut Codec, report: &mut Report) {
    for (q, word, message, wrong, margin) in READ {
        let answer = codec.decode(report, &decode_case(q, word));
        let as_due = |reading: &Reading| {
            let same = reading.message == digits(message) && reading.wrong == wrong;
            same && reading.margin == margin.unwrap_or(reading.margin)
        };
        report.require(answer.as_ref().is_ok_and(as_due), || {
            format!("{word} reads as {answer:?}, not {message}, wrong {wrong}, margin {margin:?}")
        });
    }
}

fn doubtful(codec: &mut Codec, report: &mut Report) {
    for (q, word) in DOUBTFUL {
        let answer = codec.decode(report, &decode_case(q, word));
        report.require(answer == Err(9), || format!("{word} reads as {answer:?}, not 9"));
    }
}
