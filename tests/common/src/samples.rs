//! Soft samples.

/// The ideal samples of the four symbols, as real and imaginary part.
pub const IDEAL: [(f32, f32); 4] = [(127.0, 0.0), (0.0, 127.0), (-127.0, 0.0), (0.0, -127.0)];
