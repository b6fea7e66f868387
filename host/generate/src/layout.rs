//! How the three formats store a sector.

use crate::Rng;

/// The data bytes of a sector.
pub const DATA: usize = 2048;

/// The bytes that a sector takes, and where its data begins among them.
#[derive(Clone, Copy, Debug, PartialEq, Eq)]
pub struct Layout {
    pub stored: usize,
    pub data_at: usize,
}

/// Numbers that are no format, among them some that end in a format's byte.
pub const FOREIGN: [u32; 9] = [3, 4, 255, 256, 257, 0x1_0002, 0x8000_0000, 0x8000_0001, u32::MAX];

/// The layout of a format; nothing for a foreign one.
pub fn layout(format: u32) -> Option<Layout> {
    match format {
        0 => Some(Layout { stored: 2048, data_at: 0 }),
        1 => Some(Layout { stored: 2054, data_at: 6 }),
        2 => Some(Layout { stored: 2064, data_at: 12 }),
        _ => None,
    }
}

/// One of the three formats, or now and then a foreign number.
pub fn any_format(rng: &mut Rng) -> u32 {
    match rng.below(16) {
        0 => rng.pick(&FOREIGN),
        n => n as u32 % 3,
    }
}
