//! Texts: tables with strings in them, bytes to decode with a page for them, and fixed fields.

use crate::Rng;

/// The bytes that a string has at most.
pub const MOST: usize = 4096;

/// The bytes that are white space in a field.
pub const WHITE: [u8; 12] =
    [0x09, 0x0a, 0x0b, 0x0c, 0x0d, 0x1c, 0x1d, 0x1e, 0x1f, 0x20, 0x85, 0xa0];

/// Other bytes, next to white space or to a boundary of UTF-8.
const EDGES: [u8; 14] =
    [0, 1, 0x08, 0x0e, 0x1b, 0x21, 0x7f, 0x80, 0x84, 0x86, 0x9f, 0xa1, 0xc0, 0xff];

/// A table and mostly the place of a string in it, whose length is at or next to a boundary or
/// any; else another place, at the table's end, behind it or far out.
pub fn any_string(rng: &mut Rng) -> (Vec<u8>, usize) {
    let begin = rng.pick(&[0, 1, 7, 40, 2048]);
    let length = match rng.below(8) {
        0 => 0,
        1 => rng.pick(&[MOST - 1, MOST, MOST, MOST + 1, MOST + 2, 2 * MOST]),
        _ => rng.below(300),
    };
    let mut table = vec![0; begin + length];
    rng.fill(&mut table);
    for byte in &mut table[begin..] {
        *byte = (*byte).max(1);
    }
    if rng.below(4) > 0 {
        table.push(0);
        table.extend([rng.byte(), rng.byte(), rng.byte()]);
        table.truncate(table.len() - rng.below(4));
        table.shrink_to_fit();
    }
    let place = match rng.below(16) {
        0 => table.len() + rng.below(3),
        1 => usize::MAX - rng.pick(&[0, 1, MOST - 1, MOST, 1 << 63]),
        2 | 3 => rng.below(table.len() + 1),
        _ => begin,
    };
    (table, place)
}

/// What the bytes of a text are.
#[derive(Clone, Copy)]
enum Letters {
    /// Any bytes.
    Any,
    /// ASCII from the blank on.
    Plain,
    /// The same with a few controls.
    Controls,
    /// Bytes from 80 on.
    High,
    /// ASCII from the blank on with a few others.
    Mixed,
    /// Bytes at a boundary.
    Edges,
}

const LETTERS: [Letters; 6] = [
    Letters::Any,
    Letters::Plain,
    Letters::Controls,
    Letters::High,
    Letters::Mixed,
    Letters::Edges,
];

fn any_letter(rng: &mut Rng, letters: Letters) -> u8 {
    let few = rng.below(16) == 0;
    let plain = 0x20 + rng.below(0x60) as u8;
    match letters {
        Letters::Any => rng.byte(),
        Letters::Controls if few => rng.below(0x20) as u8,
        Letters::High => 0x80 | rng.byte(),
        Letters::Mixed if few => rng.byte(),
        Letters::Edges if rng.below(2) == 0 => rng.pick(&WHITE),
        Letters::Edges => rng.pick(&EDGES),
        Letters::Plain | Letters::Controls | Letters::Mixed => plain,
    }
}

/// Bytes to decode, mostly a few; now and then as many as a string has at most, or up to twice
/// as many.
pub fn any_text(rng: &mut Rng) -> Vec<u8> {
    let length = match rng.below(32) {
        0 | 1 => 0,
        2 => MOST,
        3 => rng.below(2 * MOST),
        _ => rng.below(301),
    };
    let letters = rng.pick(&LETTERS);
    std::iter::repeat_with(|| any_letter(rng, letters)).take(length).collect()
}

/// Texts of 1 to 70 bytes: letters with one other byte in each place.
pub fn single_texts(other: u8) -> impl Iterator<Item = Vec<u8>> {
    (1..=70).flat_map(move |length| {
        let letters = vec![b'a'; length];
        (0..length).map(move |at| with(&letters, at, other))
    })
}

/// A code of any set, mostly of Latin-1.
pub fn any_code(rng: &mut Rng) -> u8 {
    match rng.below(4) {
        0 => rng.byte(),
        _ => rng.byte() & 0xf8 | rng.pick(&[0, 1, 2, 7]),
    }
}

/// The bytes of a Latin-1 text in UTF-8: two for each from 80 on, one for any other.
pub fn utf8_length(text: &[u8]) -> usize {
    text.len() + text.iter().filter(|&&byte| byte >= 0x80).count()
}

/// The length of a page for a text that needs so many bytes: just that, one less, more, none or
/// any.
pub fn any_page_length(rng: &mut Rng, need: usize) -> usize {
    match rng.below(16) {
        0 | 1 => need.saturating_sub(1),
        2 => 0,
        3 | 4 => rng.below(2 * need + 2),
        5..=8 => need + 1 + rng.below(100),
        _ => need,
    }
}

/// A field of up to 16 bytes, or now and then a longer one, with much white space.
pub fn any_field(rng: &mut Rng) -> Vec<u8> {
    let length = match rng.below(8) {
        0 => 17 + rng.below(24),
        1 => 16,
        _ => rng.below(17),
    };
    std::iter::repeat_with(|| any_field_byte(rng)).take(length).collect()
}

fn any_field_byte(rng: &mut Rng) -> u8 {
    match rng.below(16) {
        0..=5 => rng.pick(&WHITE),
        6 | 7 => rng.pick(&EDGES),
        8 => rng.byte(),
        _ => b'A' + rng.below(26) as u8,
    }
}

/// Fields of 1 to 17 bytes with every byte in every place: in letters, in white space, in zeros
/// and in letters between white space.
pub fn single_fields() -> impl Iterator<Item = Vec<u8>> {
    let places = (1..=17).flat_map(|length| (0..length).map(move |at| (length, at)));
    places.flat_map(|(length, at)| {
        let fields = surroundings(length).into_iter();
        fields.flat_map(move |field| (0..=255).map(move |byte| with(&field, at, byte)))
    })
}

fn surroundings(length: usize) -> [Vec<u8>; 4] {
    let letters = vec![b'A'; length];
    let white = WHITE.iter().copied().cycle().take(length).collect();
    let between = with(&with(&letters, 0, 0xa0), length - 1, b' ');
    [letters, white, vec![0; length], between]
}

/// Letters with every byte at both ends, in 2 to 17 bytes.
pub fn double_fields() -> impl Iterator<Item = Vec<u8>> {
    (2..=17).flat_map(|length| {
        let letters = vec![b'A'; length];
        (0..=255).map(move |byte| with(&with(&letters, 0, byte), length - 1, byte))
    })
}

/// The same bytes, but for one place.
fn with(bytes: &[u8], at: usize, byte: u8) -> Vec<u8> {
    let mut changed = bytes.to_vec();
    changed[at] = byte;
    changed
}
