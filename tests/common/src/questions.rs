//! The codes, and the questions that several calls ask.

/// The number of a question answered no.
pub type Refusal = u32;

/// The sizes of the alphabets, and the least and the greatest m.
pub const ALPHABETS: [u32; 3] = [2, 4, 8];
pub const LEAST_M: u32 = 2;
pub const GREATEST_M: u32 = 8;

/// How many values m has.
pub const COUNT_OF_M: usize = (GREATEST_M - LEAST_M + 1) as usize;

/// All codes, as (q, m).
pub const CODES: [(u32, u32); ALPHABETS.len() * COUNT_OF_M] = codes();

const fn codes() -> [(u32, u32); ALPHABETS.len() * COUNT_OF_M] {
    let mut codes = [(0, 0); ALPHABETS.len() * COUNT_OF_M];
    let mut place = 0;
    while place < codes.len() {
        codes[place] = (ALPHABETS[place / COUNT_OF_M], LEAST_M + (place % COUNT_OF_M) as u32);
        place += 1;
    }
    codes
}

/// The strap's code.
pub const STRAP: (u32, u32) = (4, 4);

/// The number where the answer is no.
#[inline]
pub fn yes(answer: bool, number: Refusal) -> Result<(), Refusal> {
    if answer {
        Ok(())
    } else {
        Err(number)
    }
}

/// Question 1.
#[inline]
pub fn is_alphabet(q: u32) -> bool {
    matches!(q, 2 | 4 | 8)
}

/// Question 2.
#[inline]
pub fn is_variables(m: u32) -> bool {
    (LEAST_M..=GREATEST_M).contains(&m)
}

/// Questions 1 and 2.
#[inline]
pub fn answer_code(q: u32, m: u32) -> Result<(), Refusal> {
    yes(is_alphabet(q), 1)?;
    yes(is_variables(m), 2)
}

/// Question 5, for a message of this length.
#[inline]
pub fn is_message_size(m: u32, length: usize) -> bool {
    length == m as usize + 1
}

/// Question 7, for a word of this length.
#[inline]
pub fn is_word_size(m: u32, length: usize) -> bool {
    length == 1 << m
}

/// Questions 6 and 8.
#[inline]
pub fn all_below(q: u32, symbols: &[u8]) -> bool {
    symbols.iter().all(|&symbol| u32::from(symbol) < q)
}
