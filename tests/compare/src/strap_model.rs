//! The second implementation of pack and unpack. A rate is taken apart by subtraction, and found again by a search
//! among all rates.

use common::questions::{all_below, is_message_size, yes, STRAP};

/// The length of the strap's messages.
pub const LENGTH: usize = 5;

pub type Message = [u8; LENGTH];

/// What a message of the strap says.
#[derive(Clone, Copy, Debug, PartialEq, Eq)]
pub struct Record {
    pub rate: u8,
    pub zone: u8,
}

/// The coefficients of a rate: each weight, the greatest first, is taken off as often as it fits.
fn coefficients(rate: u8) -> [u8; 4] {
    let mut rest = rate;
    let mut taken = |weight| {
        let mut times = 0;
        while rest >= weight {
            rest -= weight;
            times += 1;
        }
        times
    };
    let [fourth, third, second, first] = [64, 16, 4, 1].map(&mut taken);
    [first, second, third, fourth]
}

/// The message, or the number of the first question answered no: 5, 13.
pub fn pack(message_len: usize, record: Record) -> Result<Message, u32> {
    yes(is_message_size(STRAP.1, message_len), 5)?;
    yes(record.zone <= 3, 13)?;
    let [first, second, third, fourth] = coefficients(record.rate);
    Ok([record.zone, first, second, third, fourth])
}

/// The record, or the number of the first question answered no: 5, 6.
pub fn unpack(message: &[u8]) -> Result<Record, u32> {
    yes(is_message_size(STRAP.1, message.len()), 5)?;
    yes(all_below(STRAP.0, message), 6)?;
    let rate = (0..=u8::MAX).find(|&rate| coefficients(rate) == message[1..]);
    Ok(Record { rate: rate.expect("every four symbols are a rate"), zone: message[0] })
}
