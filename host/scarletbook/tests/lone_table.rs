use scarletbook::Refusal;
use scarletbook::raw::*;

const SECTOR: usize = 2048;

/// Puts bytes at places of a table of zeros.
fn table(sectors: usize, parts: &[(usize, &[u8])]) -> Vec<u8> {
    let mut table = vec![0; sectors * SECTOR];
    for (at, bytes) in parts {
        table[*at..at + bytes.len()].copy_from_slice(bytes);
    }
    table
}

/// The document's example, with further parts.
fn example(sectors: usize, parts: &[(usize, &[u8])]) -> Vec<u8> {
    let fixed: [(usize, &[u8]); 10] = [
        (0, b"TWOCHTOC"),
        (20, &[4]),
        (64, &[1]),
        (69, &[1]),
        (72, &[0, 0, 3, 232, 0, 0, 7, 208]),
        (2048, b"SACDTRL1"),
        (2056, &[0, 0, 3, 232]),
        (3076, &[0, 0, 1, 244]),
        (4096, b"SACDTRL2"),
        (5124, &[1, 0, 1]),
    ];
    table(sectors, &[&fixed[..], parts].concat())
}

struct Lent {
    tracks: Vec<Track>,
    words: Vec<u32>,
}

fn read(table: &[u8]) -> (TableAnswer, Lent) {
    let mut lent = Lent { tracks: vec![Track::default(); 255], words: vec![9; 1021] };
    let answer = read_table(table, &mut lent.tracks, &mut lent.words);
    (answer, lent)
}

/// Capped frame numbers, and timecodes as stored.
fn times(start: u32, duration: u32, stored_start: [u8; 3], stored_duration: [u8; 3]) -> TrackTimes {
    let timecode = |[minutes, seconds, frames]: [u8; 3]| Timecode { minutes, seconds, frames };
    TrackTimes {
        start_frame: Frame(start),
        duration_frames: Frame(duration),
        stored_start: timecode(stored_start),
        stored_duration: timecode(stored_duration),
    }
}

#[test]
fn the_example_of_the_document() {
    let (answer, lent) = read(&example(3, &[]));
    assert_eq!((answer.refusal, answer.warnings), (0, 1));
    let origin = TableOrigin { slot: 1, toc_lsn: Lsn(0), toc_sectors: 3 };
    assert_eq!((answer.area.present, answer.area.origin), (1, origin));
    assert_eq!((answer.area.kind, answer.area.track_count, answer.area.locale_count), (1, 1, 0));
    let times = times(0, 4500, [0, 0, 0], [1, 0, 1]);
    let track =
        Track { number: 1, start_lsn: Lsn(1000), length_sectors: 500, times, ..lent.tracks[1] };
    assert_eq!(lent.tracks[..2], [track, Track::default()]);
    assert_eq!(lent.words[..2], [14 * 65_536 + 256 + 1, 9]);
}

#[test]
fn odd_tables_and_short_lists_are_refused_and_nothing_is_written() {
    let table = example(129, &[]);
    for bytes in [0, 1, 2047, 2049, 128 * 2048 + 1, 129 * 2048] {
        let (answer, lent) = read(&table[..bytes]);
        let odd = TableAnswer { refusal: Refusal::OddTable.number(), ..TableAnswer::default() };
        assert_eq!((answer, lent.words[0]), (odd, 9));
    }
    for (tracks, words, refusal) in
        [(254, 1021, 2), (255, 1020, 2), (0, 0, 2), (255, 1021, 0), (256, 1022, 0)]
    {
        let mut tracks = vec![Track::default(); tracks];
        let mut words = vec![9; words];
        assert_eq!(read_table(&table[..6144], &mut tracks, &mut words).refusal, refusal);
    }
}

#[test]
fn a_table_without_an_area_has_its_warning() {
    for (at, byte, code) in [(0, b'X', 8), (2048, 0, 9), (4096, 0, 9), (78, 0, 11)] {
        let (answer, lent) = read(&example(3, &[(at, &[byte])]));
        let silent =
            TableAnswer { refusal: Refusal::NoArea.number(), warnings: 1, ..Default::default() };
        assert_eq!((answer, lent.words[0]), (silent, code * 65_536 + 256));
    }
}

/// The example with a text block and three items: a title, an unknown one and an empty one.
fn with_texts() -> Vec<u8> {
    let text = b"\x03\0\0\0\x01\0Title \xe9\0\x09\0unknown\0\x02\0\0";
    let parts: [(usize, &[u8]); 4] =
        [(6144, b"SACDTTxt"), (6152, &[2, 88]), (6744, text), (144, &[26, 94])];
    example(4, &parts)
}

#[test]
fn texts_are_decoded_by_their_places() {
    let table = with_texts();
    let (answer, lent) = read(&table);
    assert_eq!((answer.area.text[0].place, lent.tracks[0].text[0].place), (6750, 6750));
    let mut page = [9; 10];
    let text = DecodeAnswer { refusal: 0, len: 8 };
    assert_eq!(decode_area_text(&table, &answer.area, 0, &[], &mut page), text);
    assert_eq!(&page, b"Title \xc3\xa9\x09\x09");
    let decode = |number, item, page: &mut [u8]| {
        let DecodeAnswer { refusal, len } =
            decode_track_text(&table, &answer.area, &lent.tracks, number, item, &[], page);
        (refusal, len)
    };
    assert_eq!(decode(1, 0, &mut page[..8]), (0, 8));
    assert_eq!(decode(1, 0, &mut page[..7]), (Refusal::ShortPage.number(), 0));
    assert_eq!(decode(1, 1, &mut page), (0, 0));
    for (number, item) in [(0, 0), (2, 0), (256, 0), (1, 14), (1, u32::MAX)] {
        assert_eq!(decode(number, item, &mut page), (Refusal::NoSuchEntry.number(), 0));
    }
}

#[test]
fn records_are_not_trusted() {
    let table = with_texts();
    let (answer, lent) = read(&table);
    let decode = |change: fn(&mut Area)| {
        let mut area = answer.area;
        change(&mut area);
        decode_track_text(&table, &area, &lent.tracks, 1, 0, &[], &mut [0; 8]).refusal
    };
    assert_eq!(decode(|area| area.origin.toc_sectors = 129), Refusal::ShortBuffer.number());
    assert_eq!(decode(|area| area.origin.toc_sectors = 0), 0);
    assert_eq!(decode(|area| area.track_count = 65_535), 0);
    assert_eq!(decode(|area| area.track_count = 0), Refusal::NoSuchEntry.number());
    assert_eq!(decode(|area| area.present = 2), Refusal::NoSuchEntry.number());
    assert_eq!(decode(|area| area.origin.slot = 3), Refusal::NoSuchEntry.number());
    assert_eq!(decode(|area| area.text_charset = 3), Refusal::SetNotHeld.number());
    let mut tracks = lent.tracks;
    for end in [0, 2, 3, 255] {
        tracks[0].text[0].end = end;
        let text = decode_track_text(&table, &answer.area, &tracks, 1, 0, &[], &mut [0; 8]);
        assert_eq!(text, DecodeAnswer { refusal: 0, len: 8 });
    }
}

/// The example in so many sectors, its track's items, as many as are counted, from a place on.
fn with_items(sectors: usize, place: usize, count: u8, items: &[u8]) -> Vec<u8> {
    let offset = ((place - 6148) as u16).to_be_bytes();
    let parts: [(usize, &[u8]); 4] =
        [(6144, b"SACDTTxt"), (6152, &offset), (place - 4, &[count]), (place, items)];
    example(sectors, &parts)
}

/// The same, the items at the end of a table of four sectors.
fn with_last_items(count: u8, items: &[u8]) -> Vec<u8> {
    with_items(4, 4 * SECTOR - items.len(), count, items)
}

/// How the track's title and performer ended, and the codes of its warnings. The example has 14.
fn ends(table: &[u8]) -> ([u8; 2], Vec<u32>) {
    let (answer, lent) = read(table);
    let [title, performer, others @ ..] = lent.tracks[0].text;
    assert_eq!(others, [TextPlace::default(); 12]);
    let codes = lent.words[..answer.warnings].iter().map(|word| word >> 16);
    ([title.end, performer.end], codes.collect())
}

/// An item of a type, with a string of so many bytes and no zero byte behind them.
fn item(kind: u8, bytes: usize) -> Vec<u8> {
    [vec![kind, 0], vec![b'a'; bytes]].concat()
}

#[test]
fn a_text_of_a_track_ended_by_a_zero_byte_or_the_table_s_end() {
    assert_eq!(ends(&with_last_items(1, b"\x01\0One\0")), ([1, 0], vec![14]));
    assert_eq!(ends(&with_last_items(1, b"\x01\0One")), ([3, 0], vec![14, 19]));
    let table = with_last_items(2, b"\x01\0One\0\x02\0Two");
    assert_eq!(ends(&table), ([1, 3], vec![14, 19]));
    let (_, lent) = read(&table);
    let performer = TextPlace { place: 4 * 2048 - 3, end: ENDED_BY_TABLE_END };
    assert_eq!((lent.tracks[0].text[1], lent.words[1]), (performer, 19 * 65_536 + 256 + 1));
}

#[test]
fn a_text_of_a_track_ended_by_4096_bytes() {
    let unterminated = |title| ([title, 0], vec![14, 19]);
    // Behind the string is a zero byte, or the table's end.
    for (bytes, before_zero, before_end) in [
        (4095, ([1, 0], vec![14]), unterminated(3)),
        (4096, unterminated(2), unterminated(2)),
        (4097, unterminated(2), unterminated(2)),
    ] {
        let title = item(1, bytes);
        assert_eq!(ends(&with_items(6, 6656, 1, &title)), before_zero, "{bytes} bytes");
        let place = 6 * SECTOR - title.len();
        assert_eq!(ends(&with_items(6, place, 1, &title)), before_end, "{bytes} bytes");
    }
    let both = [item(1, 4096), vec![0], item(2, 4096)].concat();
    assert_eq!(ends(&with_items(8, 6656, 2, &both)), ([2, 2], vec![14, 19]));
}

#[test]
fn warning_19_is_about_texts_of_the_record_alone() {
    // An item of unknown type, alone and before a title.
    assert_eq!(ends(&with_last_items(1, b"\x08\0One")), ([0, 0], vec![14, 13]));
    assert_eq!(ends(&with_last_items(2, b"\x08\0One\0\x01\0Two")), ([3, 0], vec![14, 13, 19]));
    // A title that a later one replaces, and an empty one, which does not.
    let replaced = [&item(1, 4096)[..], b"\0\x01\0Two\0"].concat();
    assert_eq!(ends(&with_items(6, 6656, 2, &replaced)), ([1, 0], vec![14]));
    let kept = [&item(1, 4096)[..], b"\0\x01\0\0"].concat();
    assert_eq!(ends(&with_items(6, 6656, 2, &kept)), ([2, 0], vec![14, 19]));
    // No texts: one past the table's end, none placed, none that is not empty.
    let mut table = with_last_items(1, b"\x01\0One");
    table[6152..6154].copy_from_slice(&[255, 255]);
    assert_eq!(ends(&table), ([0, 0], vec![14, 12]));
    table[6152..6154].copy_from_slice(&[0, 0]);
    assert_eq!(ends(&table), ([0, 0], vec![14]));
    assert_eq!(ends(&with_last_items(1, b"\x01\0")), ([0, 0], vec![14]));
}

#[test]
fn a_text_of_an_area_gives_no_warning() {
    let place = 3 * SECTOR - 4;
    let (answer, lent) = read(&example(3, &[(144, &[23, 252]), (place, b"Area")]));
    let description = TextPlace { place: place as u32, end: ENDED_BY_TABLE_END };
    let [text, others @ ..] = answer.area.text;
    assert_eq!((text, others), (description, [TextPlace::default(); 3]));
    assert_eq!((answer.warnings, lent.words[0] >> 16), (1, 14));
}

#[test]
fn every_warning_that_a_table_can_have() {
    let items = b"\x02\0\0\0\x08\0One\0\x01\0Two";
    let place = 4 * SECTOR - items.len();
    let offsets = ((place - 6144) as u16).to_be_bytes().repeat(255);
    let starts = [0, 0, 1, 0].repeat(255);
    // An unknown frequency; no play time; 255 tracks, which start outside the area and have these items.
    let parts: [(usize, &[u8]); 8] = [
        (20, &[5]),
        (64, &[0]),
        (69, &[255]),
        (2056, &[0; 4]),
        (4104, &starts),
        (6144, b"SACDTTxt"),
        (6152, &offsets),
        (place, items),
    ];
    let (answer, lent) = read(&example(4, &parts));
    assert_eq!((answer.refusal, answer.warnings), (0, 1021));
    let of_track = |track: u32| [14, 15, 13, 19].map(|code| code * 65_536 + 256 + track);
    let expected: Vec<u32> = (1..=255).flat_map(of_track).collect();
    assert_eq!((lent.words[0], &lent.words[1..]), (18 * 65_536 + 256, &expected[..]));
}

#[test]
fn items_are_drawn_to_the_end() {
    let table = with_texts();
    let mut drawn = draw_at(&table, 6748, 3);
    let mut items = vec![];
    while drawn.found == 1 {
        items.push((drawn.kind, &table[drawn.place..drawn.place + drawn.len]));
        drawn = draw_at(&table, drawn.next, drawn.left);
    }
    assert_eq!(items, [(1, &b"Title \xe9"[..]), (9, b"unknown"), (2, b"")]);
    for next in [8191, 8192, usize::MAX] {
        let none = DrawAnswer { next, left: 5, ..DrawAnswer::default() };
        assert_eq!(draw_at(&table, next, 5), none);
    }
}

#[test]
fn times_are_capped_and_as_stored() {
    // The play time is 4,500 frames.
    let expected = [
        times(0, 4500, [0, 0, 0], [1, 0, 0]),
        times(0, 4500, [0, 0, 0], [1, 0, 1]),
        times(4425, 75, [0, 58, 75], [0, 0, 75]),
        times(4425, 75, [0, 58, 75], [0, 0, 76]),
        times(200, 4300, [0, 0, 200], [0, 57, 25]),
        times(4500, 0, [0, 60, 0], [0, 0, 0]),
        times(4500, 0, [0, 61, 0], [0, 0, 0]),
        times(4500, 0, [255, 255, 255], [255, 255, 255]),
    ];
    let bytes = |time: Timecode, flags| [time.minutes, time.seconds, time.frames, flags];
    let mut table = example(3, &[(69, &[expected.len() as u8])]);
    for (i, times) in expected.iter().enumerate() {
        table[4104 + 4 * i..][..4].copy_from_slice(&bytes(times.stored_start, 90));
        table[5124 + 4 * i..][..4].copy_from_slice(&bytes(times.stored_duration, 91));
    }
    let (answer, lent) = read(&table);
    let (tracks, behind) = lent.tracks.split_at(expected.len());
    for (track, times) in tracks.iter().zip(expected) {
        assert_eq!((track.times, track.start_flags, track.duration_flags), (times, 90, 91));
    }
    let past = lent.words[..answer.warnings].iter().filter(|&word| word >> 16 == 14);
    assert!(past.map(|word| word & 255).eq([2, 4, 7, 8]));
    assert!(behind.iter().all(|track| track.times == times(0, 0, [0; 3], [0; 3])));
}

#[test]
fn frames_and_the_cards_of_the_play_time() {
    let frames = [[0, 0, 0], [1, 0, 0], [255, 255, 255]]
        .map(|[minutes, seconds, frames]| frame_number(Timecode { minutes, seconds, frames }));
    assert_eq!(frames, [Frame(0), Frame(4500), Frame(1_166_880)]);
    let cards = [(4400, 100), (4400, 101), (4600, 0), (4500, 0)].map(|(start, duration)| {
        let kept = cap(Frame(start), Frame(duration), Frame(4500));
        (kept.start_frame.0, kept.duration_frames.0, kept.past_playtime)
    });
    let kept = [(4400, 100, 0), (4400, 100, 1), (4500, 0, 1), (4500, 0, 0)];
    assert_eq!(cards, kept);
}
