//! Agreement before time: on every input that is measured, all implementations give the same answer and leave the same
//! bytes.

use common::questions::{CODES, GREATEST_M, LEAST_M};

use crate::inputs::{self, Distance, Kind, Samples};
use crate::{calls, proved};

/// What stands in a buffer at entry.
const ENTRY: u8 = 77;

/// The forms of the calls.
type Read = fn(u32, u32, &mut [u8], &[u8]) -> u64;
type Write = fn(u32, u32, &[u8], &mut [u8]) -> u64;
type Near = fn(u32, u32, &[u8], &[u8]) -> u32;
type Rearrange = fn(u32, u32, u32, &[u8], &mut [u8]) -> u32;
type SoftVote = fn(u32, u32, &[f32], &[f32], &mut [f32]) -> u32;
type SoftRead = fn(u32, &mut [u8], &[f32], &[f32]) -> u32;

/// Compares what two calls answered and left.
fn same<T: PartialEq + std::fmt::Debug>(call: &str, input: String, proved: T, rust: T) -> Result<(), String> {
    if proved == rust {
        return Ok(());
    }
    Err(format!("{call} disagrees on {input}\n  proved code: {proved:?}\n  Rust: {rust:?}"))
}

fn reads(q: u32, m: u32, kind: Kind) -> Result<usize, String> {
    let words = inputs::words(q, m, kind);
    for word in &words {
        let answer = |call: Read| {
            let mut message = vec![ENTRY; m as usize + 1];
            (call(q, m, &mut message, word), message)
        };
        let others = [
            ("read (a)", calls::plain_read as Read),
            ("read (c)", calls::safe_read),
            ("read (b)", calls::safe_read_each),
        ];
        let proved = answer(proved::decode);
        for (name, call) in others {
            same(name, format!("q {q}, m {m}, {word:?}"), &proved, &answer(call))?;
        }
    }
    Ok(words.len())
}

fn writes(q: u32, m: u32) -> Result<usize, String> {
    let messages = inputs::messages(q, m);
    for message in &messages {
        let answer = |call: Write| {
            let mut word = vec![ENTRY; 1 << m];
            (call(q, m, message, &mut word), word)
        };
        let others = [
            ("write (a)", calls::plain_write as Write),
            ("write (c)", calls::safe_write),
            ("write (b)", calls::safe_write_each),
        ];
        let proved = answer(proved::encode);
        for (name, call) in others {
            same(name, format!("q {q}, m {m}, {message:?}"), &proved, &answer(call))?;
        }
    }
    Ok(messages.len())
}

/// The words as they are, and with their first symbol outside the alphabet.
fn nears(q: u32, m: u32, distance: Distance) -> Result<usize, String> {
    let pairs = inputs::pairs(q, m, distance);
    let outside = pairs.words.iter().map(|word| [&[word[0] + q as u8], &word[1..]].concat());
    let words: Vec<Vec<u8>> = pairs.words.iter().cloned().chain(outside).collect();
    for (message, word) in pairs.messages.iter().cycle().zip(&words) {
        let others = [
            ("near (a)", calls::plain_near as Near),
            ("near (b)", calls::near_by_places),
            ("near (c)", calls::near_by_quarters),
        ];
        let proved = proved::near(q, m, message, word);
        for (name, call) in others {
            same(name, format!("q {q}, m {m}, {message:?}, {word:?}"), proved, call(q, m, message, word))?;
        }
    }
    Ok(words.len())
}

/// The groups as they are, and with their last symbol outside the alphabet.
fn rearranged(q: u32, m: u32, count: u32) -> Result<usize, String> {
    let mut groups = inputs::groups(q, m, count);
    groups.extend(inputs::groups(q, m, count).into_iter().map(|mut group| {
        *group.last_mut().expect("a symbol") += q as u8;
        group
    }));
    for group in &groups {
        let answer = |call: Rearrange| {
            let mut target = vec![ENTRY; group.len()];
            (call(q, m, count, group, &mut target), target)
        };
        let others = [
            ("interleave (a)", proved::interleave as Rearrange, calls::plain_interleave as Rearrange),
            ("interleave (b)", proved::interleave, calls::safe_interleave),
            ("deinterleave (a)", proved::deinterleave, calls::plain_deinterleave),
            ("deinterleave (b)", proved::deinterleave, calls::safe_deinterleave),
        ];
        for (name, proved, call) in others {
            same(name, format!("q {q}, m {m}, {count} words, {group:?}"), answer(proved), answer(call))?;
        }
    }
    Ok(groups.len())
}

fn soft(m: u32) -> Result<usize, String> {
    let samples = inputs::samples(m);
    for Samples { re, im } in &samples {
        let input = || format!("m {m}, {re:?}, {im:?}");
        for k in 0..m {
            let answer = |call: SoftVote| {
                let mut sums = [f32::from(ENTRY); 2];
                (call(m, k, re, im, &mut sums), sums.map(f32::to_bits))
            };
            same("soft vote", format!("k {k}, {}", input()), answer(proved::soft_vote), answer(calls::soft_vote))?;
        }
        let answer = |call: SoftRead| {
            let mut message = vec![ENTRY; m as usize + 1];
            (call(m, &mut message, re, im), message)
        };
        same("soft read", input(), answer(proved::soft_read), answer(calls::soft_read))?;
    }
    Ok(samples.len())
}

/// Compares all calls on all inputs, and gives the number of inputs.
pub fn all() -> Result<usize, String> {
    let mut count = 0;
    for (q, m) in CODES {
        for kind in inputs::KINDS {
            count += reads(q, m, kind)?;
        }
        count += writes(q, m)?;
        for distance in inputs::DISTANCES.into_iter().chain([Distance::Quarter]) {
            count += nears(q, m, distance)?;
        }
        for words in 1..=16 {
            count += rearranged(q, m, words)?;
        }
    }
    for m in LEAST_M..=GREATEST_M {
        count += soft(m)?;
    }
    Ok(count)
}
