//! Plain safe Rust, (a): the bit of every index is tested, and every sum is taken modulo q.

use common::questions::{all_below, answer_code, is_message_size, is_word_size, yes, Refusal};

use crate::Reading;

/// Reads a word, or gives the number of the first question answered no: 1, 2, 5, 7, 8, 9.
pub fn read(q: u32, m: u32, message: &mut [u8], word: &[u8]) -> Result<Reading, Refusal> {
    answer_code(q, m)?;
    yes(is_message_size(m, message.len()), 5)?;
    yes(is_word_size(m, word.len()), 7)?;
    yes(all_below(q, word), 8)?;
    let mut found = [0; 9];
    let mut margin = u32::MAX;
    for k in 0..m as usize {
        let (symbol, votes, next) = winner(&coefficient_votes(q, k, word));
        found[k + 1] = symbol;
        margin = margin.min(votes - next);
    }
    let (symbol, votes, next) = winner(&constant_votes(q, &found[1..=m as usize], word));
    found[0] = symbol;
    let wrong = word.len() as u32 - votes;
    yes(4 * wrong < word.len() as u32, 9)?;
    message.copy_from_slice(&found[..=m as usize]);
    Ok(Reading { wrong, margin: margin.min(votes - next) })
}

/// How many votes each symbol has as coefficient k.
fn coefficient_votes(q: u32, k: usize, word: &[u8]) -> [u32; 8] {
    let mut votes = [0; 8];
    for i in 0..word.len() {
        if (i >> k) & 1 == 0 {
            let vote = (u32::from(word[i + (1 << k)]) + q - u32::from(word[i])) % q;
            votes[vote as usize] += 1;
        }
    }
    votes
}

/// How many votes each symbol has as the constant.
fn constant_votes(q: u32, coefficients: &[u8], word: &[u8]) -> [u32; 8] {
    let mut votes = [0; 8];
    for (i, &symbol) in word.iter().enumerate() {
        let vote = (u32::from(symbol) + q - symbol_at(q, 0, coefficients, i)) % q;
        votes[vote as usize] += 1;
    }
    votes
}

/// Symbol i of the word of this constant and these coefficients.
fn symbol_at(q: u32, constant: u8, coefficients: &[u8], i: usize) -> u32 {
    let mut sum = u32::from(constant);
    for (k, &coefficient) in coefficients.iter().enumerate() {
        if (i >> k) & 1 == 1 {
            sum += u32::from(coefficient);
        }
    }
    sum % q
}

/// The first symbol with the most votes, its votes, and the most votes of any other.
fn winner(votes: &[u32; 8]) -> (u8, u32, u32) {
    let mut first = 0;
    for symbol in 1..8 {
        if votes[symbol] > votes[first] {
            first = symbol;
        }
    }
    let mut next = 0;
    for (symbol, &count) in votes.iter().enumerate() {
        if symbol != first && count > next {
            next = count;
        }
    }
    (first as u8, votes[first], next)
}

/// Writes the word of a message, or gives the number of the first question answered no: 1, 2, 5, 6, 7.
pub fn write(q: u32, m: u32, message: &[u8], word: &mut [u8]) -> Result<(), Refusal> {
    answer_code(q, m)?;
    yes(is_message_size(m, message.len()), 5)?;
    yes(all_below(q, message), 6)?;
    yes(is_word_size(m, word.len()), 7)?;
    for (i, symbol) in word.iter_mut().enumerate() {
        *symbol = symbol_at(q, message[0], &message[1..], i) as u8;
    }
    Ok(())
}

/// Whether a message is near a word, or the number of the first question answered no: 1, 2, 5, 6, 7.
pub fn near(q: u32, m: u32, message: &[u8], word: &[u8]) -> Result<bool, Refusal> {
    answer_code(q, m)?;
    let mut code = [0; 256];
    let code = &mut code[..1 << m];
    write(q, m, message, code)?;
    yes(is_word_size(m, word.len()), 7)?;
    let wrong = code.iter().zip(word).filter(|(x, y)| x != y).count();
    Ok(4 * wrong < word.len())
}

/// The questions about a group of words, which both rearranging and putting back ask: 1, 2, 14, 7, 7, 8.
fn answer_group(q: u32, m: u32, count: u32, source: &[u8], target: &[u8]) -> Result<(), Refusal> {
    answer_code(q, m)?;
    yes((1..=16).contains(&count), 14)?;
    yes(source.len() == (count as usize) << m, 7)?;
    yes(target.len() == (count as usize) << m, 7)?;
    yes(all_below(q, source), 8)
}

/// Rearranges the words of a group, or with `BACK` puts them back, or gives the number of the first question answered
/// no.
pub fn rearrange<const BACK: bool>(
    q: u32,
    m: u32,
    count: u32,
    source: &[u8],
    target: &mut [u8],
) -> Result<(), Refusal> {
    answer_group(q, m, count, source, target)?;
    let (words, n) = (count as usize, 1 << m);
    for w in 0..words {
        for s in 0..n {
            let (in_word, in_group) = (w * n + s, s * words + w);
            let (from, to) = if BACK { (in_group, in_word) } else { (in_word, in_group) };
            target[to] = source[from];
        }
    }
    Ok(())
}
