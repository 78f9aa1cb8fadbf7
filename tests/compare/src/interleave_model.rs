//! The second implementation of rearranging a group of words and of putting it back. The words are lists from which
//! symbols are taken in turn, or to which they are dealt out in turn; no place is worked out.

use common::questions::{all_below, is_alphabet, is_variables};

/// The most words of a group.
pub const MOST_WORDS: u32 = 16;

/// The numbers of the questions in their order.
pub const NUMBERS: [u32; 5] = [1, 2, 14, 7, 8];

/// What each question is about, for the counts; that of the lengths is here twice, for the source and for the target.
pub const SUBJECTS: [&str; 6] = ["q", "m", "the count", "the source's length", "the target's length", "a symbol"];

/// Each question answered by itself, in the order of the subjects.
pub fn answers(q: u32, m: u32, count: u32, source: &[u8], target_len: usize) -> [bool; 6] {
    let is_group_size = |length: usize| m < 64 && u128::from(count) << m == length as u128;
    let is_count = (1..=MOST_WORDS).contains(&count);
    let sizes = [is_group_size(source.len()), is_group_size(target_len)];
    [is_alphabet(q), is_variables(m), is_count, sizes[0], sizes[1], all_below(q, source)]
}

/// The number of the first question answered no.
fn answer(q: u32, m: u32, count: u32, source: &[u8], target_len: usize) -> Result<(), u32> {
    let [alphabet, variables, words, of_source, of_target, symbols] = answers(q, m, count, source, target_len);
    match [alphabet, variables, words, of_source && of_target, symbols].iter().position(|&yes| !yes) {
        Some(first) => Err(NUMBERS[first]),
        None => Ok(()),
    }
}

/// The group rearranged, or the number of the first question answered no.
pub fn rearrange(q: u32, m: u32, count: u32, source: &[u8], target_len: usize) -> Result<Vec<u8>, u32> {
    answer(q, m, count, source, target_len)?;
    let mut words: Vec<_> = source.chunks(1 << m).map(|word| word.iter()).collect();
    let mut group = Vec::with_capacity(target_len);
    while group.len() < source.len() {
        group.extend(words.iter_mut().filter_map(|word| word.next()));
    }
    Ok(group)
}

/// The group put back, or the number of the first question answered no.
pub fn put_back(q: u32, m: u32, count: u32, source: &[u8], target_len: usize) -> Result<Vec<u8>, u32> {
    answer(q, m, count, source, target_len)?;
    let mut words = vec![Vec::with_capacity(1 << m); count as usize];
    for round in source.chunks(words.len()) {
        for (word, &symbol) in words.iter_mut().zip(round) {
            word.push(symbol);
        }
    }
    Ok(words.concat())
}
