//! The exported functions of the proved code, each behind a safe wrapper that passes its slices on as pointer and
//! length, and checks nothing. Every wrapper answers for every input.

mod raw {
    #[link(name = "compare_codec", kind = "static")]
    extern "C" {
        pub fn compare_encode(
            q: u32,
            m: u32,
            message: *const u8,
            message_len: usize,
            word: *mut u8,
            word_len: usize,
        ) -> u64;
        pub fn compare_decode(
            q: u32,
            m: u32,
            message: *mut u8,
            message_len: usize,
            word: *const u8,
            word_len: usize,
        ) -> u64;
    }

    #[link(name = "rm_c", kind = "static")]
    extern "C" {
        pub fn rm_write(q: u32, m: u32, message: *const u8, message_len: usize, word: *mut u8, word_len: usize) -> u32;
        pub fn rm_read(q: u32, m: u32, message: *mut u8, message_len: usize, word: *const u8, word_len: usize) -> u32;
    }

    #[link(name = "compare_near", kind = "static")]
    extern "C" {
        pub fn compare_near(
            q: u32,
            m: u32,
            message: *const u8,
            message_len: usize,
            word: *const u8,
            word_len: usize,
        ) -> u32;
    }

    #[link(name = "compare_interleave", kind = "static")]
    extern "C" {
        pub fn compare_interleave(
            q: u32,
            m: u32,
            count: u32,
            source: *const u8,
            source_len: usize,
            target: *mut u8,
            target_len: usize,
        ) -> u32;
        pub fn compare_deinterleave(
            q: u32,
            m: u32,
            count: u32,
            source: *const u8,
            source_len: usize,
            target: *mut u8,
            target_len: usize,
        ) -> u32;
    }

    #[link(name = "compare_session", kind = "static")]
    extern "C" {
        pub fn compare_open_sender(q: u32, m: u32, session: *mut u32, session_len: usize) -> u32;
        pub fn compare_open_receiver(q: u32, m: u32, session: *mut u32, session_len: usize) -> u32;
        pub fn compare_send(
            session: *mut u32,
            session_len: usize,
            message: *const u8,
            message_len: usize,
            word: *mut u8,
            word_len: usize,
        ) -> u32;
        pub fn compare_receive(
            session: *mut u32,
            session_len: usize,
            delivery: *mut u32,
            delivery_len: usize,
            message: *mut u8,
            message_len: usize,
            word: *const u8,
            word_len: usize,
        ) -> u32;
        pub fn compare_miss(session: *mut u32, session_len: usize) -> u32;
    }

    #[link(name = "compare_soft", kind = "static")]
    extern "C" {
        pub fn compare_soft_vote(
            m: u32,
            k: u32,
            re: *const f32,
            re_len: usize,
            im: *const f32,
            im_len: usize,
            sums: *mut f32,
            sums_len: usize,
        ) -> u32;
        pub fn compare_soft_read(
            m: u32,
            message: *mut u8,
            message_len: usize,
            re: *const f32,
            re_len: usize,
            im: *const f32,
            im_len: usize,
        ) -> u32;
    }

    #[link(name = "compare_strap", kind = "static")]
    extern "C" {
        pub fn compare_pack(message: *mut u8, message_len: usize, rate: u8, zone: u8) -> u32;
        pub fn compare_unpack(message: *const u8, message_len: usize) -> u32;
    }
}

/// The answer of a call that did what it was asked for and has no values.
pub const DONE: u32 = 100;

/// The answer of `encode` for a word written.
pub const WRITTEN: u64 = 1_000_000;

/// The answer of `decode` for a word read, of wrong and margin, and that of `unpack`, of rate and zone.
#[inline(always)]
pub fn values(first: u32, second: u32) -> u64 {
    1_000_000 + 1_000 * u64::from(first) + u64::from(second)
}

/// The answers of `near` for a message that is near the word, and for one that is not.
pub const NEAR: u32 = 101;
pub const NOT_NEAR: u32 = 100;

/// The answer of `soft_vote`: 100 + symbol for sure, and 104 for unsure.
#[inline(always)]
pub fn voted(symbol: Option<u8>) -> u32 {
    100 + symbol.map_or(4, u32::from)
}

/// The refusal number, or `WRITTEN`.
#[inline]
pub fn encode(q: u32, m: u32, message: &[u8], word: &mut [u8]) -> u64 {
    let (length, word_length) = (message.len(), word.len());
    // SAFETY: each pointer and length is that of a slice lent for the call.
    unsafe { raw::compare_encode(q, m, message.as_ptr(), length, word.as_mut_ptr(), word_length) }
}

/// The refusal number, or the `values` wrong and margin.
#[inline]
pub fn decode(q: u32, m: u32, message: &mut [u8], word: &[u8]) -> u64 {
    let (length, word_length) = (message.len(), word.len());
    // SAFETY: each pointer and length is that of a slice lent for the call.
    unsafe { raw::compare_decode(q, m, message.as_mut_ptr(), length, word.as_ptr(), word_length) }
}

/// The C form of encode: the refusal number, or `DONE`.
#[inline]
pub fn rm_write(q: u32, m: u32, message: &[u8], word: &mut [u8]) -> u32 {
    let (length, word_length) = (message.len(), word.len());
    // SAFETY: each pointer and length is that of a slice lent for the call.
    unsafe { raw::rm_write(q, m, message.as_ptr(), length, word.as_mut_ptr(), word_length) }
}

/// The C form of decode: the refusal number, or `DONE` + wrong.
#[inline]
pub fn rm_read(q: u32, m: u32, message: &mut [u8], word: &[u8]) -> u32 {
    let (length, word_length) = (message.len(), word.len());
    // SAFETY: each pointer and length is that of a slice lent for the call.
    unsafe { raw::rm_read(q, m, message.as_mut_ptr(), length, word.as_ptr(), word_length) }
}

/// The refusal number, or `NEAR` or `NOT_NEAR`.
#[inline]
pub fn near(q: u32, m: u32, message: &[u8], word: &[u8]) -> u32 {
    let (length, word_length) = (message.len(), word.len());
    // SAFETY: each pointer and length is that of a slice lent for the call.
    unsafe { raw::compare_near(q, m, message.as_ptr(), length, word.as_ptr(), word_length) }
}

/// The refusal number, or `DONE` with the group rearranged in the target.
#[inline]
pub fn interleave(q: u32, m: u32, count: u32, source: &[u8], target: &mut [u8]) -> u32 {
    let (length, target_length) = (source.len(), target.len());
    // SAFETY: each pointer and length is that of a slice lent for the call.
    unsafe { raw::compare_interleave(q, m, count, source.as_ptr(), length, target.as_mut_ptr(), target_length) }
}

/// The refusal number, or `DONE` with the group put back in the target.
#[inline]
pub fn deinterleave(q: u32, m: u32, count: u32, source: &[u8], target: &mut [u8]) -> u32 {
    let (length, target_length) = (source.len(), target.len());
    // SAFETY: each pointer and length is that of a slice lent for the call.
    unsafe { raw::compare_deinterleave(q, m, count, source.as_ptr(), length, target.as_mut_ptr(), target_length) }
}

/// The refusal number, or `DONE` with the session.
#[inline]
pub fn open_sender(q: u32, m: u32, session: &mut [u32]) -> u32 {
    // SAFETY: the pointer and length are those of a slice lent for the call.
    unsafe { raw::compare_open_sender(q, m, session.as_mut_ptr(), session.len()) }
}

/// The refusal number, or `DONE` with the session.
#[inline]
pub fn open_receiver(q: u32, m: u32, session: &mut [u32]) -> u32 {
    // SAFETY: the pointer and length are those of a slice lent for the call.
    unsafe { raw::compare_open_receiver(q, m, session.as_mut_ptr(), session.len()) }
}

/// The refusal number, or `DONE` with the next session.
#[inline]
pub fn send(session: &mut [u32], message: &[u8], word: &mut [u8]) -> u32 {
    let (numbers, length, word_length) = (session.len(), message.len(), word.len());
    let (session, word) = (session.as_mut_ptr(), word.as_mut_ptr());
    // SAFETY: each pointer and length is that of a slice lent for the call.
    unsafe { raw::compare_send(session, numbers, message.as_ptr(), length, word, word_length) }
}

/// The refusal number, at 9 with the next session, or `DONE` with the next session and the delivery.
#[inline]
pub fn receive(session: &mut [u32], delivery: &mut [u32], message: &mut [u8], word: &[u8]) -> u32 {
    let (numbers, values, length) = (session.len(), delivery.len(), message.len());
    let (session, delivery, message) = (session.as_mut_ptr(), delivery.as_mut_ptr(), message.as_mut_ptr());
    // SAFETY: each pointer and length is that of a slice lent for the call.
    unsafe { raw::compare_receive(session, numbers, delivery, values, message, length, word.as_ptr(), word.len()) }
}

/// The refusal number, or `DONE` with the next session.
#[inline]
pub fn miss(session: &mut [u32]) -> u32 {
    // SAFETY: the pointer and length are those of a slice lent for the call.
    unsafe { raw::compare_miss(session.as_mut_ptr(), session.len()) }
}

/// The refusal number, or whether a symbol was `voted` for, with both sums in the slice of two.
#[inline]
pub fn soft_vote(m: u32, k: u32, re: &[f32], im: &[f32], sums: &mut [f32]) -> u32 {
    let (re_length, im_length, length) = (re.len(), im.len(), sums.len());
    // SAFETY: each pointer and length is that of a slice lent for the call.
    unsafe { raw::compare_soft_vote(m, k, re.as_ptr(), re_length, im.as_ptr(), im_length, sums.as_mut_ptr(), length) }
}

/// The refusal number, or `DONE`.
#[inline]
pub fn soft_read(m: u32, message: &mut [u8], re: &[f32], im: &[f32]) -> u32 {
    let (length, re_length, im_length) = (message.len(), re.len(), im.len());
    // SAFETY: each pointer and length is that of a slice lent for the call.
    unsafe { raw::compare_soft_read(m, message.as_mut_ptr(), length, re.as_ptr(), re_length, im.as_ptr(), im_length) }
}

/// The refusal number, or `DONE`.
#[inline]
pub fn pack(message: &mut [u8], rate: u8, zone: u8) -> u32 {
    // SAFETY: the pointer and length are those of a slice lent for the call.
    unsafe { raw::compare_pack(message.as_mut_ptr(), message.len(), rate, zone) }
}

/// The refusal number, or the `values` rate and zone.
#[inline]
pub fn unpack(message: &[u8]) -> u32 {
    // SAFETY: the pointer and length are those of a slice lent for the call.
    unsafe { raw::compare_unpack(message.as_ptr(), message.len()) }
}
