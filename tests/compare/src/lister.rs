//! A second lister, after docs/REQUIREMENTS.md ("Session list"): bytes in, text out, over the second implementation of
//! the receiving session.

use common::questions::STRAP;

use crate::model::Model;
use crate::session_model::{Delivery, Received, Receiver};
use crate::strap_model::{self, LENGTH};

const HEADER: &str = "ms rate zone wrong margin\n";

/// What a line of input is.
enum Line {
    Word(Vec<u8>),
    Miss,
    Bad,
}

fn line_of(bytes: &[u8]) -> Line {
    let is_digit = |byte: &u8| (b'0'..=b'3').contains(byte);
    match bytes {
        b"-" => Line::Miss,
        _ if bytes.len() == 16 && bytes.iter().all(is_digit) => Line::Word(bytes.iter().map(|b| b - b'0').collect()),
        _ => Line::Bad,
    }
}

/// The lines of an input, without their newlines. The last may lack it.
fn lines(input: &[u8]) -> Vec<&[u8]> {
    let mut lines: Vec<&[u8]> = input.split(|&byte| byte == b'\n').collect();
    if lines.last().is_some_and(|rest| rest.is_empty()) {
        lines.pop();
    }
    lines
}

/// Everything that the program prints for an input.
pub fn list(model: &Model, input: &[u8]) -> String {
    let mut session = Receiver::open(STRAP.0, STRAP.1).expect("the strap's code");
    let mut text = String::from(HEADER);
    for line in lines(input) {
        let printed = answer(model, &mut session, line_of(line));
        text.push_str(&printed);
        text.push('\n');
        if printed == "over" {
            break;
        }
    }
    text
}

/// The printed line, with the session that the line leaves.
fn answer(model: &Model, session: &mut Receiver, line: Line) -> String {
    let ms = session.time();
    let (next, printed) = match line {
        Line::Bad => return String::from("bad"),
        Line::Miss => match session.miss() {
            Ok(next) => (next, format!("{ms} missed")),
            Err(number) => return over(number),
        },
        Line::Word(word) => match session.receive(model, LENGTH, &word) {
            Received::Read(next, delivery, message) => (next, read(ms, &delivery, &message)),
            Received::Doubtful(next) => (next, format!("{ms} doubtful")),
            Received::Refused(number) => return over(number),
        },
    };
    *session = next;
    printed
}

fn read(ms: u32, delivery: &Delivery, message: &[u8]) -> String {
    let rate = strap_model::unpack(message).expect("a message of the strap").rate;
    let zone = delivery.zone.map_or(String::from("-"), |zone| zone.to_string());
    format!("{ms} {rate} {zone} {} {}", delivery.wrong, delivery.margin)
}

/// The one refusal that a sound session and a word of 16 symbols below 4 leave.
fn over(number: u32) -> String {
    assert_eq!(number, 4, "a listed slot is refused with 4 only");
    String::from("over")
}
