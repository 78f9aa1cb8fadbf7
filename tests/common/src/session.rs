//! The limits of a session, and the time of its slots.

/// The slots of a session, and how many ms each lasts.
pub const SLOTS: u32 = 65_536;
const SLOT_MS: u32 = 1024;

/// The time of a slot, by its number, in ms.
#[inline]
pub fn slot_time(slot: u32) -> u32 {
    slot * SLOT_MS
}
