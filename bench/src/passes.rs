//! A pass: one call for each of the inputs, with warm buffers and nothing that the compiler could know or leave out.

use std::hint::black_box;

use crate::inputs::{Pairs, Samples, COUNT, GROUPS};

pub type Pass<'a> = Box<dyn FnMut() + 'a>;

/// Reads every word.
pub fn read<'a>(
    call: impl Fn(u32, u32, &mut [u8], &[u8]) -> u64 + 'a,
    q: u32,
    m: u32,
    words: &'a [Vec<u8>],
) -> Pass<'a> {
    let mut message = vec![0; m as usize + 1];
    Box::new(move || {
        for word in words {
            black_box(call(black_box(q), black_box(m), black_box(&mut message), black_box(word)));
        }
    })
}

/// Writes the word of every message.
pub fn write<'a>(
    call: impl Fn(u32, u32, &[u8], &mut [u8]) -> u64 + 'a,
    q: u32,
    m: u32,
    messages: &'a [Vec<u8>],
) -> Pass<'a> {
    let mut word = vec![0; 1 << m];
    Box::new(move || {
        for message in messages {
            black_box(call(black_box(q), black_box(m), black_box(message), black_box(&mut word)));
        }
    })
}

/// Asks of every message whether it is near the word beside it.
pub fn near<'a>(call: impl Fn(u32, u32, &[u8], &[u8]) -> u32 + 'a, q: u32, m: u32, pairs: &'a Pairs) -> Pass<'a> {
    Box::new(move || {
        for (message, word) in pairs.messages.iter().zip(&pairs.words) {
            black_box(call(black_box(q), black_box(m), black_box(message), black_box(word)));
        }
    })
}

/// Rearranges every group of so many words, or puts it back, as often as makes the calls of a pass.
pub fn rearrange<'a>(
    call: impl Fn(u32, u32, u32, &[u8], &mut [u8]) -> u32 + 'a,
    q: u32,
    m: u32,
    count: u32,
    groups: &'a [Vec<u8>],
) -> Pass<'a> {
    let mut target = vec![0; (count as usize) << m];
    Box::new(move || {
        for _ in 0..COUNT / GROUPS {
            for group in groups {
                let target = black_box(&mut target);
                black_box(call(black_box(q), black_box(m), black_box(count), black_box(group), target));
            }
        }
    })
}

/// One soft vote for every word of samples, on each coefficient in turn.
pub fn soft_vote<'a>(
    call: impl Fn(u32, u32, &[f32], &[f32], &mut [f32]) -> u32 + 'a,
    m: u32,
    samples: &'a [Samples],
) -> Pass<'a> {
    let mut sums = [0.0; 2];
    Box::new(move || {
        for (k, Samples { re, im }) in (0..m).cycle().zip(samples) {
            black_box(call(black_box(m), black_box(k), black_box(re), black_box(im), black_box(&mut sums)));
        }
    })
}

/// The soft read of every word of samples.
pub fn soft_read<'a>(
    call: impl Fn(u32, &mut [u8], &[f32], &[f32]) -> u32 + 'a,
    m: u32,
    samples: &'a [Samples],
) -> Pass<'a> {
    let mut message = vec![0; m as usize + 1];
    Box::new(move || {
        for Samples { re, im } in samples {
            black_box(call(black_box(m), black_box(&mut message), black_box(re), black_box(im)));
        }
    })
}
