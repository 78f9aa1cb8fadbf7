//! The words of a group rearranged and put back, in safe Rust, (b), for SSE2: the fastest that we know. Up to 16
//! columns of all words are a block, and zipping the halves of a block over and over turns it about: to[2i] = from[i]
//! and to[2i + 1] = from[half + i]. The compiler does that with whole registers where every length is a constant and
//! each shape has a function of its own: one for each length of word and each count of words. A count that is no power
//! of two is filled up to the next one.

use common::questions::is_alphabet;

use crate::proved::DONE;
use crate::safe::all_below;

/// P rows of C symbols.
type Block<const C: usize, const P: usize> = [[u8; C]; P];

/// A block has room for so many symbols, however few it has.
const ROOM: usize = 256;

/// Zips the halves of the first 2 * half symbols. They are taken apart first, so that all of the room is zipped: of a
/// loop of this length the compiler makes vector code, keeps the symbols in registers and leaves out those that nobody
/// reads. A shorter one it unrolls first, and then moves symbol by symbol.
#[inline(always)]
fn zip(half: usize, row: &mut [u8; ROOM]) {
    let mut apart = [0; ROOM];
    apart[..half].copy_from_slice(&row[..half]);
    apart[ROOM / 2..ROOM / 2 + half].copy_from_slice(&row[half..2 * half]);
    let (low, high) = apart.split_at(ROOM / 2);
    for (pair, (x, y)) in row.as_chunks_mut().0.iter_mut().zip(low.iter().zip(high)) {
        *pair = [*x, *y];
    }
}

/// The columns of a block one after the other, or with `BACK` the rows of one whose columns stand so. Zipping turns the
/// bits of every place round by one: as many times as the number of a row has bits or, the other way, that of a
/// column.
#[inline(always)]
fn turn<const BACK: bool, const C: usize, const P: usize>(from: &Block<C, P>, to: &mut Block<C, P>) {
    let mut row = [0; ROOM];
    row[..P * C].copy_from_slice(from.as_flattened());
    for _ in 0..if BACK { C.ilog2() } else { P.ilog2() } {
        zip(P * C / 2, &mut row);
    }
    to.as_flattened_mut().copy_from_slice(&row[..P * C]);
}

/// Copies a row: P symbols, or only W where one of the slices ends before.
#[inline(always)]
fn copy_row<const W: usize, const P: usize>(from: &[u8], to: &mut [u8]) {
    match (from.first_chunk::<P>(), to.first_chunk_mut()) {
        (Some(from), Some(to)) => *to = *from,
        _ => to[..W].copy_from_slice(&from[..W]),
    }
}

/// Rearranges W words of N symbols, C columns at a time, W filled up to P. Where there are fewer than P, what is copied
/// after a column is overwritten by the next one.
#[inline(always)]
fn forth<const N: usize, const C: usize, const W: usize, const P: usize>(source: &[u8], target: &mut [u8]) {
    let words = &source.as_chunks::<N>().0[..W];
    for first in (0..N / C).map(|block| C * block) {
        let (mut block, target) = ([[0; C]; P], &mut target[first * W..]);
        for (row, word) in block.iter_mut().zip(words) {
            row.copy_from_slice(&word[first..first + C]);
        }
        match target.as_chunks_mut().0.first_chunk_mut() {
            Some(columns) if W == P => turn::<false, C, P>(&block, columns),
            _ => {
                let mut columns = [[0; C]; P];
                turn::<false, C, P>(&block, &mut columns);
                for (s, column) in columns.as_flattened().as_chunks::<P>().0.iter().enumerate() {
                    copy_row::<W, P>(column, &mut target[s * W..]);
                }
            }
        }
    }
}

/// Puts W words of N symbols back, C columns at a time, W filled up to P.
#[inline(always)]
fn back<const N: usize, const C: usize, const W: usize, const P: usize>(source: &[u8], target: &mut [u8]) {
    let words = &mut target.as_chunks_mut::<N>().0[..W];
    for first in (0..N / C).map(|block| C * block) {
        let (mut block, source) = ([[0; C]; P], &source[first * W..]);
        match source.as_chunks().0.first_chunk() {
            Some(columns) if W == P => turn::<true, C, P>(columns, &mut block),
            _ => {
                let mut columns = [[0; C]; P];
                for (s, column) in columns.as_flattened_mut().as_chunks_mut::<P>().0.iter_mut().enumerate() {
                    copy_row::<W, P>(&source[s * W..], column);
                }
                turn::<true, C, P>(&columns, &mut block);
            }
        }
        for (row, word) in block.iter().zip(&mut *words) {
            word[first..first + C].copy_from_slice(row);
        }
    }
}

/// Asks the questions 7, 7 and 8, and rearranges, or puts back: W words of N symbols, where P is the least power of two
/// from W on. The answer is the number itself, so that nothing is left to do after it.
#[inline(never)]
fn group<const BACK: bool, const N: usize, const C: usize, const W: usize, const P: usize>(
    q: u32,
    source: &[u8],
    target: &mut [u8],
) -> u32 {
    if source.len() != W * N || target.len() != W * N {
        return 7;
    }
    if !all_below(q, source) {
        return 8;
    }
    match (source.as_chunks().0.first_chunk(), target.as_chunks_mut().0.first_chunk_mut()) {
        _ if W == 1 => target.copy_from_slice(source),
        (Some(from), Some(to)) if N == C && W == P => turn::<BACK, C, P>(from, to),
        _ if BACK => back::<N, C, W, P>(source, target),
        _ => forth::<N, C, W, P>(source, target),
    }
    DONE
}

#[inline(always)]
fn counted<const BACK: bool, const N: usize, const C: usize>(q: u32, count: u32, from: &[u8], to: &mut [u8]) -> u32 {
    match count {
        1 => group::<BACK, N, C, 1, 1>(q, from, to),
        2 => group::<BACK, N, C, 2, 2>(q, from, to),
        3 => group::<BACK, N, C, 3, 4>(q, from, to),
        4 => group::<BACK, N, C, 4, 4>(q, from, to),
        5 => group::<BACK, N, C, 5, 8>(q, from, to),
        6 => group::<BACK, N, C, 6, 8>(q, from, to),
        7 => group::<BACK, N, C, 7, 8>(q, from, to),
        8 => group::<BACK, N, C, 8, 8>(q, from, to),
        9 => group::<BACK, N, C, 9, 16>(q, from, to),
        10 => group::<BACK, N, C, 10, 16>(q, from, to),
        11 => group::<BACK, N, C, 11, 16>(q, from, to),
        12 => group::<BACK, N, C, 12, 16>(q, from, to),
        13 => group::<BACK, N, C, 13, 16>(q, from, to),
        14 => group::<BACK, N, C, 14, 16>(q, from, to),
        15 => group::<BACK, N, C, 15, 16>(q, from, to),
        16 => group::<BACK, N, C, 16, 16>(q, from, to),
        _ => 14,
    }
}

/// Rearranges the words of a group, or with `BACK` puts them back: `DONE`, or the number of the first question answered
/// no: 1, 2, 14, 7, 7, 8.
#[inline(always)]
pub fn rearrange<const BACK: bool>(q: u32, m: u32, count: u32, source: &[u8], target: &mut [u8]) -> u32 {
    if !is_alphabet(q) {
        return 1;
    }
    match m {
        2 => counted::<BACK, 4, 4>(q, count, source, target),
        3 => counted::<BACK, 8, 8>(q, count, source, target),
        4 => counted::<BACK, 16, 16>(q, count, source, target),
        5 => counted::<BACK, 32, 16>(q, count, source, target),
        6 => counted::<BACK, 64, 16>(q, count, source, target),
        7 => counted::<BACK, 128, 16>(q, count, source, target),
        8 => counted::<BACK, 256, 16>(q, count, source, target),
        _ => 2,
    }
}
