//! What the program `draws` prints of a table: the items of its tracks' texts, by the plain walk,
//! whose last nonempty ones the Rust must have as texts.

use generate::plain::{self, Item};
use generate::table::Structure;
use oracle::lone::read_lone;
use oracle::text::{Charset, decode_string};
use oracle::toc::{TrackText, TrackTextItem};

/// The lines of every track; nothing if one has no text, or the Rust has other texts.
pub fn lines(table: &[u8]) -> Option<Vec<u8>> {
    let area = read_lone(table).ok()?.0?;
    let charset = Charset::from_code(area.text_charset);
    let block = plain::first_of(&plain::met(table), Structure::TrackText);
    let mut lines = vec![];
    for (i, track) in area.tracks.iter().enumerate() {
        let text = plain::text_at(table, block, i)?;
        let items = plain::track_items(table, Some(text));
        if !agree(table, &items, charset, &track.text) {
            return None;
        }
        lines.extend(text_lines(table, &items));
    }
    Some(lines)
}

/// Whether the last nonempty item of each known type is the Rust's text.
fn agree(table: &[u8], items: &[Item], charset: Charset, rust: &TrackText) -> bool {
    let last = plain::last_nonempty(items);
    let texts = last.map(|item| decode_string(string(table, &item?), charset));
    texts.iter().map(Option::as_deref).eq(TrackTextItem::ALL.iter().map(|&item| rust.get(item)))
}

fn string<'a>(table: &'a [u8], item: &Item) -> &'a [u8] {
    &table[item.place..item.place + item.len]
}

/// The number of items, each one's type byte and string, and the end, twice.
fn text_lines(table: &[u8], items: &[Item]) -> Vec<u8> {
    let mut lines = format!("text {}\n", items.len()).into_bytes();
    for item in items {
        lines.extend(format!("item {} ", item.kind).bytes());
        lines.extend(string(table, item));
        lines.push(b'\n');
    }
    lines.extend(b"end\nend\n");
    lines
}

#[test]
fn items_of_every_sort_are_drawn() {
    let lines = lines(&crate::named::items()).expect("the Rust has these texts");
    let texts = [
        &b"text 2\nitem 128 Unknown\nitem 136 and more\nend\nend\n"[..],
        b"text 2\nitem 9 \nitem 3 Songwriter\nend\nend\n",
        b"text 3\nitem 2 First\nitem 2 \nitem 2 Last\nend\nend\n",
        b"text 0\nend\nend\n",
        b"text 1\nitem 7 More are said than there are\xe9\x1f\nend\nend\n",
    ];
    assert!(lines.ends_with(&texts.concat()));
}

#[test]
fn other_items_are_not_the_rusts_texts() {
    let table = crate::named::items();
    let area = read_lone(&table).expect("a table").0.expect("an area");
    let block = plain::first_of(&plain::met(&table), Structure::TrackText);
    let mut items = plain::track_items(&table, plain::text_at(&table, block, 5));
    let agree = |items: &[Item]| agree(&table, items, Charset::Latin1, &area.tracks[5].text);
    assert!(agree(&items));
    items.reverse();
    assert!(!agree(&items));
    assert!(!agree(&[]));
}

#[test]
fn a_track_without_a_text_has_no_draws() {
    assert_eq!(lines(&crate::named::offsets()), None);
    assert_eq!(lines(&[0; 2048]), None);
}
