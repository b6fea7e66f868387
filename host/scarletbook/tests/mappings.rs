//! Texts of sets 3 to 6 by a mapping: the exported calls, then the safe interface.

#[allow(dead_code)]
#[path = "../examples/small_disc.rs"]
mod small_disc;

use scarletbook::raw::*;
use scarletbook::{
    AreaTextItem, Disc, DiscTextItem, Mappings, Refusal, Refused, SectorFormat, Table,
    TrackTextItem,
};
use small_disc::{area_table, plain, put, put_in};

/// The value of a double, by its place.
const DOUBLE: u32 = 1 << 31;
/// A code point of four bytes.
const NOTE: u32 = 0x1d11e;
const MASTER: usize = 510;

/// The words of a mapping.
fn words(singles: &[[u32; 2]], pairs: &[[u32; 2]], doubles: &[[u32; 2]]) -> Vec<u32> {
    let list = |list: &[[u32; 2]]| [&[list.len() as u32], list.as_flattened()].concat();
    [list(singles), list(pairs), list(doubles)].concat()
}

/// `a`; the first byte of pairs by itself; a control; a double of a single. Pairs: a character, a
/// control, a double with a control, a reserved pair.
fn worked() -> Vec<u32> {
    words(
        &[[0x61, 0x61], [0x81, 0xa5], [0x90, 7], [0xff, DOUBLE]],
        &[[0x8140, 0x3000], [0x8141, 9], [0x8142, DOUBLE + 1], [0xeffc, 0x2603]],
        &[[0x304b, 0x309a], [0x1f, NOTE]],
    )
}

/// The text that bytes have by a mapping, on a page that is just long enough; one byte less is refused.
fn text(bytes: &[u8], code: u8, mapping: &[u32]) -> String {
    let mut page = vec![9; PAGE_BYTES];
    let DecodeAnswer { refusal, len } = decode(bytes, code, mapping, &mut page);
    assert_eq!(refusal, 0);
    assert!(page[len..].iter().all(|&byte| byte == 9));
    let text = page[..len].to_vec();
    page.fill(9);
    assert_eq!(decode(bytes, code, mapping, &mut page[..len]), DecodeAnswer { refusal: 0, len });
    assert_eq!(page[..len], text);
    page.fill(9);
    let short = DecodeAnswer { refusal: Refusal::ShortPage.number(), len: 0 };
    assert_eq!(decode(bytes, code, mapping, &mut page[..len - 1]), short);
    assert!(page.iter().all(|&byte| byte == 9));
    String::from_utf8(text).expect("UTF-8")
}

/// The refusal of decoding, which leaves the page as it was.
fn refusal(bytes: &[u8], code: u8, mapping: &[u32], room: usize) -> u8 {
    let mut page = vec![9; room];
    let answer = decode(bytes, code, mapping, &mut page);
    assert!(answer.len == 0 && page.iter().all(|&byte| byte == 9));
    answer.refusal
}

#[test]
fn a_byte_and_the_next_are_a_pair_first_and_then_a_single() {
    let mapping = worked();
    for code in [3, 4, 5, 6, 11, 254] {
        assert_eq!(text(b"a\x81\x40a", code, &mapping), "a\u{3000}a");
        // An unmapped pair goes on from its second byte, and a first byte may be the last.
        assert_eq!(text(b"\x81\x81\x40\x81", code, &mapping), "¥\u{3000}¥");
        assert_eq!(text(b"b\x82a", code, &mapping), "\u{fffd}\u{fffd}a");
        assert_eq!(text(b"\xff\x81\x42a", code, &mapping), "か\u{309a} \u{1d11e}a");
        assert_eq!(text(b"\x90\x81\x41", code, &mapping), "  ");
        // A byte below 32, or 0, has no meaning of its own.
        assert_eq!(text(b"\x1f\0", code, &mapping), "\u{fffd}\u{fffd}");
    }
}

#[test]
fn reserved_pairs_are_those_of_set_3_and_only_without_a_value() {
    let mapping = worked();
    for (code, expected) in [(3, "\u{fffd}a"), (4, "\u{fffd}\u{fffd}a"), (6, "\u{fffd}\u{fffd}a")] {
        assert_eq!(text(b"\x87\x9fa", code, &mapping), expected);
    }
    for code in 3..7 {
        assert_eq!(text(b"\xef\xfc", code, &mapping), "☃");
    }
}

#[test]
fn a_mapping_without_entries_gives_a_replacement_for_each_byte() {
    assert_eq!(text(b"abc", 5, &[0, 0, 0]), "\u{fffd}\u{fffd}\u{fffd}");
}

#[test]
fn each_byte_gives_at_most_eight() {
    let mapping = words(&[[0x61, DOUBLE]], &[], &[[NOTE, 0x10_ffff]]);
    assert_eq!(text(&[b'a'; 4096], 3, &mapping).len(), PAGE_BYTES);
}

/// Lists of words that are no mapping, each for one cause.
fn no_mappings() -> Vec<Vec<u32>> {
    let with_value = |value| words(&[], &[[0x8140, value]], &[[0x41, 0x42]]);
    let with_double = |double| words(&[], &[], &[double]);
    let mut lists = vec![
        vec![0],
        vec![0, 0],
        vec![0, 0, 0, 0],
        vec![1, 0x61, 0x61],
        vec![1, 0x61, 0x61, 0],
        vec![u32::MAX; 3],
        vec![0, u32::MAX, 0],
        words(&[[0x100, 0x61]], &[], &[]),
        words(&[], &[[0x1_0000, 0x61]], &[]),
        words(&[[0x61, 0x61], [0x61, 0x61]], &[], &[]),
        words(&[], &[[0x8141, 0x61], [0x8140, 0x61]], &[]),
        words(&[[0x61, DOUBLE]], &[], &[]),
    ];
    lists.extend([0xd800, 0xdfff, 0x11_0000, DOUBLE - 1, DOUBLE + 1, u32::MAX].map(with_value));
    lists.extend(
        [[0xd800, 0x41], [0x41, 0xdfff], [0x11_0000, 0x41], [0x41, DOUBLE]].map(with_double),
    );
    lists
}

#[test]
fn words_that_are_no_mapping_are_refused_by_12() {
    let bad = Refusal::BadMapping.number();
    for list in no_mappings() {
        for code in 3..7 {
            // 12 comes before 10.
            assert_eq!(
                [0, 1, 8].map(|room| refusal(b"a", code, &list, room)),
                [bad; 3],
                "{list:?}"
            );
        }
    }
    for good in [0xd7ff, 0xe000, 0x10_ffff, 0, DOUBLE] {
        let mapping =
            words(&[[0, good], [0xff, good]], &[[0, good], [0xffff, good]], &[[0, 0xfffe]]);
        assert_eq!(decode(b"\0", 3, &mapping, &mut [0; 8]).refusal, 0);
    }
}

#[test]
fn no_words_are_refused_by_9_and_latin_1_and_absent_texts_by_neither() {
    for code in 3..7 {
        assert_eq!([0, 8].map(|room| refusal(b"a", code, &[], room)), [9; 2]);
    }
    for list in no_mappings().into_iter().chain([vec![], worked()]) {
        for code in 0..=255 {
            assert_eq!(refusal(b"", code, &list, 0), 0);
        }
        for code in [0, 1, 2, 7, 8, 255] {
            let mut page = [9; 3];
            assert_eq!(decode(b"a\xe9", code, &list, &mut page).len, 3);
            assert_eq!(&page, b"a\xc3\xa9");
        }
    }
}

/// A table of set 3 with two titles, one of them absent, and a description.
fn table() -> Vec<u8> {
    let mut table = area_table(b"TWOCHTOC", 3, &[b"\x81\x40a", b""], 7);
    put(&mut table, 144, &[4, 0]);
    put(&mut table, 1024, b"\xff\0");
    table
}

/// The small disc, its own texts and the table of its first slot of set 3.
fn image() -> Vec<u8> {
    let mut image = plain();
    put_in(&mut image, MASTER, 138, &[3]);
    put_in(&mut image, MASTER + 1, 1024, b"a\x81\x81\x40\0");
    for lsn in [540, 550] {
        put_in(&mut image, lsn, 0, &table());
    }
    image
}

#[test]
fn from_the_records_of_a_lone_table_2_and_8_come_first() {
    let (table, bad) = (table(), [1]);
    let (mut tracks, mut buffer) = (vec![Track::default(); MAX_TRACKS], vec![0; TABLE_WORDS]);
    let area = read_table(&table, &mut tracks, &mut buffer).area;
    let mut page = [9; 8];
    let mut area_text = |table: &[u8], item, mapping: &[u32], room: usize| {
        let answer = decode_area_text(table, &area, item, mapping, &mut page[..room]);
        (answer.refusal, answer.len)
    };
    assert_eq!(area_text(&table, 0, &worked(), 6), (0, 6));
    assert_eq!(area_text(&table, 0, &worked(), 5), (10, 0));
    assert_eq!(area_text(&table, 0, &bad, 0), (12, 0));
    assert_eq!(area_text(&table, 0, &[], 0), (9, 0));
    assert_eq!(area_text(&table, 1, &bad, 0), (0, 0));
    assert_eq!(area_text(&table, 4, &bad, 0), (8, 0));
    assert_eq!(area_text(&table[1..], 4, &bad, 0), (2, 0));
    assert_eq!(page, *b"\xe3\x81\x8b\xe3\x82\x9a\x09\x09");
    let track_text = |number, item, mapping: &[u32], page: &mut [u8]| {
        let answer = decode_track_text(&table, &area, &tracks, number, item, mapping, page);
        (answer.refusal, answer.len)
    };
    assert_eq!(track_text(1, 0, &worked(), &mut page), (0, 4));
    assert_eq!(page, *b"\xe3\x80\x80a\x82\x9a\x09\x09");
    assert_eq!(track_text(1, 0, &worked(), &mut page[..3]), (10, 0));
    assert_eq!(track_text(1, 0, &bad, &mut []), (12, 0));
    assert_eq!(track_text(1, 0, &[], &mut []), (9, 0));
    assert_eq!(track_text(2, 0, &bad, &mut []), (0, 0));
    assert_eq!(track_text(3, 0, &bad, &mut []), (8, 0));
    let short = decode_track_text(&table, &area, &tracks[1..], 3, 0, &bad, &mut []);
    assert_eq!(short.refusal, 2);
}

#[test]
fn from_the_records_of_a_disc_2_and_8_come_first() {
    let (image, bad, good) = (image(), [1], worked());
    let mut work = vec![0; WORK_BYTES];
    let mut tracks = vec![Track::default(); TRACK_RECORDS];
    let disc = read_disc(0u32, &image, &mut work, &mut tracks, &mut [0; WARNING_WORDS]);
    let (master, area) = (disc.master, disc.two_channel);
    let mut page = [9; 8];
    let answers = [
        decode_disc_text(&work, &master, 0, &good, &mut page),
        decode_disc_area_text(&work, &area, 0, &good, &mut page),
        decode_disc_track_text(&work, &area, &tracks, 1, 0, &good, &mut page),
    ];
    assert_eq!(answers.map(|answer| (answer.refusal, answer.len)), [(0, 6), (0, 6), (0, 4)]);
    for (mapping, room, number) in [(&good[..], 3, 10), (&bad, 0, 12), (&[], 0, 9)] {
        let page = &mut page[..room];
        assert_eq!(decode_disc_text(&work, &master, 0, mapping, page).refusal, number);
        assert_eq!(decode_disc_area_text(&work, &area, 0, mapping, page).refusal, number);
        let text = decode_disc_track_text(&work, &area, &tracks, 1, 0, mapping, page);
        assert_eq!(text.refusal, number);
    }
    let none = DecodeAnswer { refusal: 8, len: 0 };
    assert_eq!(decode_disc_text(&work, &master, 16, &bad, &mut page), none);
    assert_eq!(decode_disc_area_text(&work, &area, 4, &bad, &mut page), none);
    assert_eq!(decode_disc_track_text(&work, &area, &tracks, 3, 0, &bad, &mut page), none);
    let short = DecodeAnswer { refusal: 2, len: 0 };
    assert_eq!(decode_disc_text(&work[1..], &master, 16, &bad, &mut page), short);
    assert_eq!(decode_disc_area_text(&work[1..], &area, 4, &bad, &mut page), short);
    assert_eq!(decode_disc_track_text(&work, &area, &tracks[1..], 3, 0, &bad, &mut page), short);
}

#[test]
fn mappings_are_held_by_set() {
    let (one, other) = (worked(), [0, 0, 0]);
    let none = Mappings::new();
    assert_eq!(none, Mappings::default());
    assert!((0..=255).all(|code| none.of(code).is_empty()));
    let mappings = none.with(3, &one).and_then(|mappings| mappings.with(6, &other));
    let mappings = mappings.expect("sets 3 and 6");
    let held = [0, 1, 2, 3, 4, 5, 6, 7, 11, 14].map(|code| mappings.of(code));
    assert_eq!(held, [&[], &[], &[], &one[..], &[], &[], &other, &[], &one, &other]);
    assert_eq!(mappings.with(3, &other).map(|mappings| mappings.of(3)), Ok(&other[..]));
    for set in [0, 1, 2, 7, 8, 11, 255] {
        assert_eq!(mappings.with(set, &one), Err(Refusal::NoSuchEntry));
    }
    assert_eq!(format!("{mappings:?}"), "{3: 23, 4: 0, 5: 0, 6: 3}");
}

#[test]
fn a_disc_decodes_by_the_mapping_of_each_set() {
    let (image, mapping, other) = (image(), worked(), [1]);
    let read = || Disc::read(SectorFormat::Plain, &image).expect("accepted");
    let mappings = Mappings::new().with(3, &mapping).and_then(|held| held.with(4, &other));
    let disc = read().with_mappings(mappings.expect("sets 3 and 4"));
    assert_eq!(disc.text(DiscTextItem::AlbumTitle), Ok(Some("a¥\u{3000}".to_owned())));
    assert_eq!(disc.text(DiscTextItem::DiscTitle), Ok(None));
    let area = disc.area(1).expect("slot 1");
    let texts: Vec<_> = area.texts().collect();
    assert_eq!(texts, [(AreaTextItem::Description, Ok("か\u{309a}".to_owned()))]);
    let titles = area.tracks().map(|track| track.text(TrackTextItem::Title));
    assert!(titles.eq([Ok(Some("\u{3000}a".to_owned())), Ok(None)]));
    let second = disc.area(2).and_then(|area| area.track(1)).expect("slot 2, track 1");
    assert_eq!(second.text(TrackTextItem::Title), Ok(Some("\u{fffd}\u{fffd}".to_owned())));
    // Without one, and with one for another set alone, all is refused as before.
    let another = Mappings::new().with(5, &mapping).expect("set 5");
    for disc in [read(), read().with_mappings(Mappings::new()), read().with_mappings(another)] {
        assert_eq!(disc.text(DiscTextItem::AlbumTitle), Err(Refusal::SetNotHeld));
        assert_eq!(disc.text(DiscTextItem::DiscTitle), Ok(None));
        let area = disc.area(1).expect("slot 1");
        assert_eq!(area.text(AreaTextItem::Description), Err(Refusal::SetNotHeld));
        let titles = area.tracks().map(|track| track.text(TrackTextItem::Title));
        assert!(titles.eq([Err(Refusal::SetNotHeld), Ok(None)]));
    }
}

#[test]
fn words_that_are_no_mapping_are_refused_only_where_a_text_needs_them() {
    let (image, bad) = (image(), [0, 1]);
    let mappings = (3..7).try_fold(Mappings::new(), |held, set| held.with(set, &bad));
    let mappings = mappings.expect("sets 3 to 6");
    let disc = Disc::read(0u32, &image).expect("accepted").with_mappings(mappings);
    assert_eq!(disc.text(DiscTextItem::AlbumTitle), Err(Refusal::BadMapping));
    assert_eq!(disc.texts().count(), 1);
    let track = disc.area(1).and_then(|area| area.track(1)).expect("slot 1, track 1");
    assert_eq!(track.text(TrackTextItem::Title), Err(Refusal::BadMapping));
    assert_eq!(track.text(TrackTextItem::Performer), Ok(None));
    let latin1 = Disc::read(0u32, &plain()).expect("accepted").with_mappings(mappings);
    assert_eq!(latin1.text(DiscTextItem::AlbumTitle), Ok(Some("Café concert".to_owned())));
}

#[test]
fn a_silent_disc_decodes_by_mappings_too() {
    let mut image = image();
    put_in(&mut image, MASTER, 84, &[0; 4]);
    let mapping = worked();
    let mappings = Mappings::new().with(3, &mapping).expect("set 3");
    let refused = Disc::read(0u32, &image).expect_err("refused");
    let refused = refused.map(|disc| disc.with_mappings(mappings));
    assert_eq!(refused.refusal(), Refusal::NoArea);
    let title = |disc: &Disc| disc.text(DiscTextItem::AlbumTitle);
    assert_eq!(refused.silent().map(title), Some(Ok(Some("a¥\u{3000}".to_owned()))));
    let cut: Refused<Disc> = Disc::read(0u32, &[]).expect_err("refused");
    assert!(cut.map(|disc| disc.with_mappings(mappings)).silent().is_none());
}

#[test]
fn a_lone_table_decodes_by_mappings() {
    let (bytes, mapping) = (table(), worked());
    let mappings = Mappings::new().with(3, &mapping).expect("set 3");
    let (mut tracks, mut buffer) = (vec![Track::default(); MAX_TRACKS], vec![0; TABLE_WORDS]);
    for table in [Table::read(&bytes), Table::read_in(&bytes, &mut tracks, &mut buffer)] {
        let table = table.expect("accepted").with_mappings(mappings);
        let area = table.area().expect("an area");
        assert_eq!(area.text(AreaTextItem::Description), Ok(Some("か\u{309a}".to_owned())));
        let title = area.track(1).expect("track 1").text(TrackTextItem::Title);
        assert_eq!(title, Ok(Some("\u{3000}a".to_owned())));
    }
}

/// A page for every text is made only for texts that need more than 8,192 bytes: these, one byte
/// more, and all of 32,768.
#[test]
fn texts_of_any_length_are_decoded() {
    let mapping = words(&[[0x61, DOUBLE], [0x62, 0x62]], &[], &[[NOTE, NOTE]]);
    let mappings = Mappings::new().with(3, &mapping).expect("set 3");
    let titles = [(1024, 0), (1024, 1), (4096, 0)]
        .map(|(doubles, singles)| [vec![b'a'; doubles], vec![b'b'; singles]].concat());
    let bytes = area_table(b"TWOCHTOC", 3, &titles.each_ref().map(|title| &title[..]), 10);
    let table = Table::read(&bytes).expect("accepted").with_mappings(mappings);
    let texts = table.area().expect("an area").tracks().map(|track| {
        let text = track.text(TrackTextItem::Title).expect("decoded").expect("present");
        assert!(text.chars().all(|letter| letter == '\u{1d11e}' || letter == 'b'));
        text.len()
    });
    assert!(texts.eq([8192, 8193, PAGE_BYTES]));
}
