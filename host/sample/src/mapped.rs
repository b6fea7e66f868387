//! What the program `vectors` prints of texts by a mapping: by the Rust, with the same mapping as data text. Refusals 12
//! and 10 are the document's.

use generate::Rng;
use generate::mapping::{DOUBLE, Mapping};
use oracle::lent::lend;
use oracle::mounts::decode_string;
use std::sync::Once;

/// The mapping of `vectors`.
fn mapping() -> Mapping {
    Mapping {
        singles: vec![(0x41, 0x41), (0x42, DOUBLE), (0x43, 7), (0x81, 0xa5)],
        pairs: vec![(0x8140, 0x3000), (0x8141, DOUBLE + 1), (0x889e, 0x1_f600)],
        doubles: vec![(0x304b, 0x309a), (8, 0x44)],
    }
}

/// The texts by it, and those by its words without the last: the bytes, and the code of their set.
const TEXTS: [(&[u8], u8); 10] = [
    (b"A", 3),
    (b"\x81\x40", 3),
    (b"B", 3),
    (b"C\x81\x41", 3),
    (b"\x87\x9f", 3),
    (b"\x87\x9f", 4),
    (b"\x88\x9e", 3),
    (b"\x82\x81\x40", 3),
    (b"A\x81", 3),
    (b"\x81\x40\x81\x40\x81\x40", 3),
];
const BY_NO_MAPPING: [(&[u8], u8); 3] = [(b"A", 3), (b"A", 8), (b"", 3)];

/// Where the Rust has the mapping, for the two sets.
const MOUNT: usize = 1;
static LENT: Once = Once::new();

/// The bytes of a page, and what each is before.
const PAGE: usize = 8;
const UNWRITTEN: u8 = b'.';

/// A line for each text: the refusal, the length and the page.
pub fn lines() -> String {
    LENT.call_once(|| {
        let text = mapping().text(&mut Rng::new(1));
        [3, 4].into_iter().for_each(|set| lend(MOUNT, set, text.clone()));
    });
    let mapped = TEXTS.iter().map(|text| line(*text, true));
    mapped.chain(BY_NO_MAPPING.iter().map(|text| line(*text, false))).collect()
}

fn line((bytes, code): (&[u8], u8), mapped: bool) -> String {
    let text = decode_string(MOUNT, bytes, code).unwrap_or_default();
    let set = (3..=6).contains(&(code % 8));
    let (refusal, shown) = match text.len() {
        0 => (0, ""),
        _ if set && !mapped => (12, ""),
        0..=PAGE => (0, text.as_str()),
        _ => (10, ""),
    };
    let mut page = [UNWRITTEN; PAGE];
    page[..shown.len()].copy_from_slice(shown.as_bytes());
    let page: String = page.iter().map(|byte| format!("{byte:02x}")).collect();
    format!("{refusal} {} {page}\n", shown.len())
}

#[test]
fn lines_have_every_sort_of_element() {
    let lines = lines();
    let expected = "0 1 412e2e2e2e2e2e2e\n0 3 e380802e2e2e2e2e\n0 6 e3818be3829a2e2e\n";
    assert!(lines.starts_with(expected), "{lines}");
    assert!(lines.ends_with("12 0 2e2e2e2e2e2e2e2e\n0 1 412e2e2e2e2e2e2e\n0 0 2e2e2e2e2e2e2e2e\n"));
    assert_eq!(lines.lines().count(), TEXTS.len() + BY_NO_MAPPING.len());
    assert_eq!(mapping().words().len(), 21);
}
