//! A mapping from a file: a line for each byte or pair of bytes, with its code points.

use scarletbook::{Refusal, raw};
use std::fmt;
use std::fs::File;
use std::io::{self, Read};
use std::path::Path;

/// The value of an entry with two code points is this and the place of its double.
const DOUBLE: u32 = 1 << 31;
/// A larger number is taken as this one, which is no code point and no place of a double.
const LARGEST: u32 = DOUBLE - 1;
/// The bytes of a file at most: a thousand for every pair of bytes.
const MOST_BYTES: u64 = 1 << 26;

/// What a line says: its key, and the one or two code points that it stands for.
struct Entry {
    key: u32,
    point: u32,
    second: Option<u32>,
}

/// The number, from 1, of a line that is neither an entry, nor a comment, nor empty.
#[derive(Clone, Copy, Debug, PartialEq, Eq)]
pub struct BadLine(pub usize);

impl fmt::Display for BadLine {
    fn fmt(&self, f: &mut fmt::Formatter<'_>) -> fmt::Result {
        let entry = "two or four hexadecimal digits, a tab and one or two code points U+..";
        write!(f, "line {} is not {entry}", self.0)
    }
}

impl std::error::Error for BadLine {}

/// The words of the mapping that a file has.
pub fn read(path: &Path) -> io::Result<Vec<u32>> {
    let mut text = vec![];
    File::open(path)?.take(MOST_BYTES + 1).read_to_end(&mut text)?;
    if text.len() as u64 > MOST_BYTES {
        return Err(io::Error::other("too long for a mapping"));
    }
    words(&text).map_err(io::Error::other)
}

/// The words of the mapping that a text says, in the order that the library asks for. A line is a key
/// of two hexadecimal digits for a byte, or of four for a pair, a tab, and one or two code points, as
/// `U+3000`, a blank between words; a word that does not begin with `U+` is skipped, and so are lines
/// that begin with `#`, empty ones, and a carriage return at a line's end. Lines stand in any order. A
/// repeated key and a number that is no code point are left for the library to refuse.
///
/// ```
/// use tables::mapping::{BadLine, words};
///
/// let text = b"# a comment\n82F5\tU+304B U+309A\n8140\tU+3000 IDEOGRAPHIC SPACE\n5C\tU+A5\n";
/// let (singles, pairs) = ([1, 0x5c, 0xa5], [2, 0x8140, 0x3000, 0x82f5, 0x8000_0000]);
/// assert_eq!(words(text), Ok([&singles[..], &pairs, &[1, 0x304b, 0x309a]].concat()));
/// assert_eq!(words(b"5C\tU+A5\n8140 U+3000"), Err(BadLine(2)));
/// ```
pub fn words(text: &[u8]) -> Result<Vec<u32>, BadLine> {
    let mut lists = [vec![], vec![]];
    for (number, line) in text.split(|&byte| byte == b'\n').enumerate() {
        let line = line.strip_suffix(b"\r").unwrap_or(line);
        if line.is_empty() || line.starts_with(b"#") {
            continue;
        }
        let (list, entry) = entry(line).ok_or(BadLine(number + 1))?;
        lists[list].push(entry);
    }
    Ok(laid_out(lists))
}

/// The list that a line belongs to, 0 for singles and 1 for pairs, and what it says.
fn entry(line: &[u8]) -> Option<(usize, Entry)> {
    let tab = line.iter().position(|&byte| byte == b'\t')?;
    let (digits, rest) = (&line[..tab], &line[tab + 1..]);
    let list = match digits.len() {
        2 => 0,
        4 => 1,
        _ => return None,
    };
    let words = rest.split(|&byte| byte == b' ').filter_map(|word| word.strip_prefix(b"U+"));
    let points: Vec<_> = words.map(hexadecimal).collect::<Option<_>>()?;
    let (point, second) = match points[..] {
        [point] => (point, None),
        [point, second] => (point, Some(second)),
        _ => return None,
    };
    Some((list, Entry { key: hexadecimal(digits)?, point, second }))
}

/// The number of hexadecimal digits, of which there is at least one.
fn hexadecimal(digits: &[u8]) -> Option<u32> {
    let mut number = 0u32;
    for &digit in digits {
        let digit = char::from(digit).to_digit(16)?;
        number = number.saturating_mul(16).saturating_add(digit).min(LARGEST);
    }
    (!digits.is_empty()).then_some(number)
}

/// The words of two lists, sorted by key, and of the doubles that they name.
fn laid_out(lists: [Vec<Entry>; 2]) -> Vec<u32> {
    let (mut words, mut doubles) = (vec![], vec![]);
    for mut entries in lists {
        entries.sort_by_key(|entry| entry.key);
        words.push(entries.len() as u32);
        for Entry { key, point, second } in entries {
            let place = doubles.len() as u32;
            doubles.extend(second.map(|second| [point, second]));
            words.extend([key, if second.is_some() { DOUBLE + place } else { point }]);
        }
    }
    words.push(doubles.len() as u32);
    words.extend(doubles.as_flattened());
    words
}

/// Refused by 12, as by the library for a text of the set, if words are no mapping.
pub fn check(set: u8, words: &[u32]) -> Result<(), Refusal> {
    let answer = raw::decode(&[0], set, words, &mut [0; 8]);
    Refusal::of_number(answer.refusal).map_or(Ok(()), Err)
}
