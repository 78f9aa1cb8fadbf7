//! The second implementation: straight from docs/REQUIREMENTS.md, slow and plain, sharing nothing with the proved code.
//!
//! A word is read in two ways. `Codebook::search` compares it with the codewords of all messages and looks at no
//! vote; `read_by_votes` takes the winners of the votes and recounts the distance. Codes with few messages are read
//! in both ways, and the two must agree.

use common::questions::{all_below, answer_code, is_message_size, is_word_size, yes, CODES};

/// A code with at most so many messages is read by search as well.
pub const FEW_MESSAGES: usize = 4096;

/// The votes for each symbol; places from q on stay 0.
pub type Votes = [u32; 8];

#[derive(Clone, Debug, PartialEq, Eq)]
pub struct Reading {
    pub message: Vec<u8>,
    pub wrong: u32,
    pub margin: u32,
}

/// The number of messages of a code: q^(m + 1).
pub fn message_count(q: u32, m: u32) -> usize {
    (q as usize).pow(m + 1)
}

/// The list of `length` symbols whose digits to the base q, lowest first, make `number`.
pub fn symbols_of(q: u32, length: usize, number: usize) -> Vec<u8> {
    let mut rest = number;
    let mut symbols = Vec::with_capacity(length);
    for _ in 0..length {
        symbols.push((rest % q as usize) as u8);
        rest /= q as usize;
    }
    symbols
}

/// Every message of a code.
pub fn messages(q: u32, m: u32) -> impl Iterator<Item = Vec<u8>> {
    (0..message_count(q, m)).map(move |number| symbols_of(q, m as usize + 1, number))
}

fn bit_is_set(i: usize, k: usize) -> bool {
    i & (1 << k) != 0
}

/// The codeword of a message: at each of the 2^m places i the constant, plus every coefficient k for which bit k of i
/// is set, modulo q.
pub fn codeword(q: u32, message: &[u8]) -> Vec<u8> {
    let mut word = vec![message[0]; 1 << (message.len() - 1)];
    for (k, &coefficient) in message[1..].iter().enumerate() {
        for (i, symbol) in word.iter_mut().enumerate() {
            *symbol += if bit_is_set(i, k) { coefficient } else { 0 };
        }
    }
    for symbol in &mut word {
        *symbol %= q as u8;
    }
    word
}

/// The number of places where two words of one length differ.
pub fn distance(x: &[u8], y: &[u8]) -> u32 {
    x.iter().zip(y).fold(0, |places: u32, (a, b)| places.wrapping_add(u32::from(a != b)))
}

/// A message at this distance from a word of n symbols is near it.
fn is_near(n: usize, wrong: u32) -> bool {
    4 * (wrong as usize) < n
}

/// The vote for coefficient k at place i, whose bit k is clear.
pub fn vote(q: u32, word: &[u8], k: usize, i: usize) -> u8 {
    (word[i + (1 << k)] + q as u8 - word[i]) % q as u8
}

/// The votes for coefficient k.
fn votes(q: u32, word: &[u8], k: usize) -> Votes {
    let mut votes = [0; 8];
    for i in 0..word.len() {
        if !bit_is_set(i, k) {
            votes[usize::from(vote(q, word, k, i))] += 1;
        }
    }
    votes
}

/// The votes for the constant: the symbols left when the message's coefficients are taken out of the word.
fn constant_votes(q: u32, word: &[u8], message: &[u8]) -> Votes {
    let mut coefficients = message.to_vec();
    coefficients[0] = 0;
    let mut votes = [0; 8];
    for (y, x) in word.iter().zip(codeword(q, &coefficients)) {
        votes[usize::from((y + q as u8 - x) % q as u8)] += 1;
    }
    votes
}

/// The symbol with the most votes, the lowest of those where several have as many.
fn winner(q: u32, votes: &Votes) -> u8 {
    let mut best = 0;
    for symbol in 1..q as usize {
        if votes[symbol] > votes[best] {
            best = symbol;
        }
    }
    best as u8
}

/// The votes for a symbol minus the most votes for any one other.
fn lead(q: u32, votes: &Votes, symbol: u8) -> i64 {
    let others = (0..q as usize).filter(|&other| other != usize::from(symbol));
    let most = others.map(|other| votes[other]).max().expect("q is at least 2");
    i64::from(votes[usize::from(symbol)]) - i64::from(most)
}

/// The least lead over the m + 1 symbols of a near message.
fn margin(q: u32, message: &[u8], word: &[u8]) -> u32 {
    let mut least = lead(q, &constant_votes(q, word, message), message[0]);
    for (k, &coefficient) in message[1..].iter().enumerate() {
        least = least.min(lead(q, &votes(q, word, k), coefficient));
    }
    u32::try_from(least).expect("a near message leads every vote")
}

/// The reading of a word as this message, if it is near.
fn reading(q: u32, message: &[u8], word: &[u8]) -> Option<Reading> {
    let wrong = distance(&codeword(q, message), word);
    is_near(word.len(), wrong).then(|| Reading { message: message.to_vec(), wrong, margin: margin(q, message, word) })
}

/// Reads a word of 2^m symbols below q: the winners of the votes, if their message is near.
pub fn read_by_votes(q: u32, m: u32, word: &[u8]) -> Option<Reading> {
    let mut message = vec![0; m as usize + 1];
    for k in 0..m as usize {
        message[k + 1] = winner(q, &votes(q, word, k));
    }
    message[0] = winner(q, &constant_votes(q, word, &message));
    reading(q, &message, word)
}

/// Every codeword of a code with few messages, one after the other.
pub struct Codebook {
    q: u32,
    m: u32,
    words: Vec<u8>,
}

impl Codebook {
    pub fn new(q: u32, m: u32) -> Codebook {
        let words = messages(q, m).flat_map(|message| codeword(q, &message)).collect();
        Codebook { q, m, words }
    }

    /// Reads a word of 2^m symbols below q: the near message among all of them. Panics at two near messages.
    pub fn search(&self, word: &[u8]) -> Option<Reading> {
        let mut found = None;
        for (number, candidate) in self.words.chunks_exact(word.len()).enumerate() {
            if is_near(word.len(), distance(candidate, word)) {
                assert!(found.is_none(), "two messages are near {word:?}");
                found = Some(number);
            }
        }
        reading(self.q, &symbols_of(self.q, self.m as usize + 1, found?), word)
    }
}

/// The word written, or the number of the first question answered no: 1, 2, 5, 6, 7.
pub fn encode(q: u32, m: u32, message: &[u8], word_len: usize) -> Result<Vec<u8>, u32> {
    answer_code(q, m)?;
    yes(is_message_size(m, message.len()), 5)?;
    yes(all_below(q, message), 6)?;
    yes(is_word_size(m, word_len), 7)?;
    Ok(codeword(q, message))
}

/// Whether the message is near the word, whose symbols may be any, or the number of the first question answered no: 1,
/// 2, 5, 6, 7. The whole codeword is written, and every place of it counts.
pub fn near(q: u32, m: u32, message: &[u8], word: &[u8]) -> Result<bool, u32> {
    let written = encode(q, m, message, word.len())?;
    Ok(is_near(word.len(), distance(&written, word)))
}

/// The second implementation of decode, with the codebooks that its search needs.
pub struct Model {
    codebooks: Vec<Codebook>,
}

impl Model {
    pub fn new() -> Model {
        let few = |&(q, m): &(u32, u32)| message_count(q, m) <= FEW_MESSAGES;
        let codebooks = CODES.into_iter().filter(few).map(|(q, m)| Codebook::new(q, m));
        Model { codebooks: codebooks.collect() }
    }

    /// The reading, or the number of the first question answered no: 1, 2, 5, 7, 8, 9.
    pub fn decode(&self, q: u32, m: u32, message_len: usize, word: &[u8]) -> Result<Reading, u32> {
        answer_code(q, m)?;
        yes(is_message_size(m, message_len), 5)?;
        yes(is_word_size(m, word.len()), 7)?;
        yes(all_below(q, word), 8)?;
        self.read(q, m, word).ok_or(9)
    }

    /// Reads by votes, and by search too where there are few messages. Panics where the two differ.
    fn read(&self, q: u32, m: u32, word: &[u8]) -> Option<Reading> {
        let voted = read_by_votes(q, m, word);
        if let Some(codebook) = self.codebooks.iter().find(|book| (book.q, book.m) == (q, m)) {
            let found = codebook.search(word);
            assert_eq!(voted, found, "the model's own readers differ: q {q}, m {m}, word {word:?}");
        }
        voted
    }
}
