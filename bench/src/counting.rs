//! One call over and over, for a program that counts instructions.

use crate::inputs::{self, Distance, Kind};
use crate::passes::{self, Pass};
use crate::{calls, proved};

/// Runs so many passes of the named call; the words to read are lightly damaged, those to compare with a message clean,
/// and groups have 16 words. The soft calls have q 4 alone.
pub fn run(name: &str, q: u32, m: u32, count: usize) -> Result<(), String> {
    let (words, messages, samples) = (inputs::words(q, m, Kind::Light), inputs::messages(q, m), inputs::samples(m));
    let (pairs, groups) = (inputs::pairs(q, m, Distance::Clean), inputs::groups(q, m, 16));
    let mut pass: Pass = match name {
        "proved-decode" => passes::read(proved::decode, q, m, &words),
        "safe-decode" => passes::read(calls::safe_read_each, q, m, &words),
        "proved-encode" => passes::write(proved::encode, q, m, &messages),
        "safe-encode" => passes::write(calls::safe_write_each, q, m, &messages),
        "proved-near" => passes::near(proved::near, q, m, &pairs),
        "safe-near" => passes::near(calls::near_by_places, q, m, &pairs),
        "proved-interleave" => passes::rearrange(proved::interleave, q, m, 16, &groups),
        "safe-interleave" => passes::rearrange(calls::safe_interleave, q, m, 16, &groups),
        "proved-deinterleave" => passes::rearrange(proved::deinterleave, q, m, 16, &groups),
        "safe-deinterleave" => passes::rearrange(calls::safe_deinterleave, q, m, 16, &groups),
        "proved-soft-vote" => passes::soft_vote(proved::soft_vote, m, &samples),
        "safe-soft-vote" => passes::soft_vote(calls::soft_vote, m, &samples),
        "proved-soft-read" => passes::soft_read(proved::soft_read, m, &samples),
        "safe-soft-read" => passes::soft_read(calls::soft_read, m, &samples),
        _ => return Err(format!("no call named {name}")),
    };
    for _ in 0..count {
        pass();
    }
    Ok(())
}
