//! Tables with a name, each made for one rule: small changes of the document's example.

use generate::layout::DATA;
use generate::table::{most_warnings, put, put16, put32};

/// A table and its name.
pub type Named = (String, Vec<u8>);

/// The same, as it is written here.
type Made = (&'static str, Vec<u8>);

/// Sub-structures from sector 1 on, in a table of so many sectors: both track lists have one track
/// from address 1000 on, 500 sectors long, and 1:0:1 in time; the play time is 1:0:0.
pub fn table(structures: &[&[u8; 8]], sectors: usize) -> Vec<u8> {
    let mut table = vec![0; sectors * DATA];
    put(&mut table, 0, b"TWOCHTOC");
    put(&mut table, 20, &[4]);
    put(&mut table, 64, &[1]);
    put(&mut table, 69, &[1]);
    put32(&mut table, 72, 1000);
    put32(&mut table, 76, 2000);
    let mut at = DATA;
    for &structure in structures {
        put(&mut table, at, structure);
        match structure {
            b"SACDTRL1" => put_lsn(&mut table, at, 0, 1000, 500),
            b"SACDTRL2" => put_times(&mut table, at, 0, [0, 0, 0], [1, 0, 1]),
            _ => {}
        }
        at += if structure == b"SACD_IGL" { 2 * DATA } else { DATA };
    }
    table
}

/// The document's example.
pub fn example() -> Vec<u8> {
    table(&[b"SACDTRL1", b"SACDTRL2"], 3)
}

pub fn with(table: Vec<u8>, at: usize, bytes: &[u8]) -> Vec<u8> {
    let mut table = table;
    put(&mut table, at, bytes);
    table
}

/// A table of zeros past the example's end, or a part of the example.
fn of_length(bytes: usize) -> Vec<u8> {
    let mut table = example();
    table.resize(bytes, 0);
    table
}

fn put_lsn(table: &mut [u8], list: usize, track: usize, lsn: u32, sectors: u32) {
    put32(table, list + 8 + 4 * track, lsn);
    put32(table, list + 1028 + 4 * track, sectors);
}

fn put_times(table: &mut [u8], list: usize, track: usize, start: [u8; 3], duration: [u8; 3]) {
    put(table, list + 8 + 4 * track, &start);
    put(table, list + 1028 + 4 * track, &duration);
}

/// So many tracks, each at its own address and time.
pub fn tracks(count: u8) -> Vec<u8> {
    let mut table = with(with(example(), 69, &[count]), 64, &[255, 59, 74]);
    for track in 0..count {
        let at = usize::from(track);
        put_lsn(&mut table, DATA, at, 1000 + 3 * u32::from(track), 3);
        put_times(&mut table, 2 * DATA, at, [track, 0, 0], [0, 59, 74]);
    }
    table
}

/// The document's cards of the play time 4500, a track each.
fn playtimes() -> Vec<u8> {
    let mut table = with(example(), 69, &[6]);
    let cards = [(4400, 100), (4400, 101), (4600, 0), (4500, 0), (4500, 1), (4501, 0)];
    for (track, (start, duration)) in cards.into_iter().enumerate() {
        let [start, duration] =
            [start, duration].map(|frames: u32| [0, (frames / 75) as u8, (frames % 75) as u8]);
        put_lsn(&mut table, DATA, track, 1000, 1);
        put_times(&mut table, 2 * DATA, track, start, duration);
    }
    table
}

/// A track at each edge of the area's addresses and outside.
fn addresses() -> Vec<u8> {
    let mut table = with(example(), 69, &[6]);
    for (track, lsn) in [999, 1000, 1001, 2000, 2001, u32::MAX].into_iter().enumerate() {
        put_lsn(&mut table, DATA, track, lsn, 7);
        put_times(&mut table, 2 * DATA, track, [0, 0, 0], [0, 1, 0]);
    }
    table
}

/// A table with a text block in sector 3 and one more sector, and a track for each text.
fn texts(texts: &[&[u8]]) -> Vec<u8> {
    let mut table = table(&[b"SACDTRL1", b"SACDTRL2", b"SACDTTxt"], 5);
    put(&mut table, 69, &[texts.len() as u8]);
    let mut place = 3 * DATA + 600;
    for (track, text) in texts.iter().enumerate() {
        put_lsn(&mut table, DATA, track, 1000, 1);
        put_times(&mut table, 2 * DATA, track, [0, 0, 0], [0, 1, 0]);
        put16(&mut table, 3 * DATA + 8 + 2 * track, (place - 3 * DATA) as u16);
        put(&mut table, place, text);
        place += text.len();
    }
    table
}

/// Text offsets: none, the last that fits, one past it, the largest.
pub fn offsets() -> Vec<u8> {
    let mut table = texts(&[&b"\x01\0\0\0\x01\0Title\0"[..]; 5]);
    for (track, offset) in [0, 4092, 4093, 65_535].into_iter().enumerate() {
        put16(&mut table, 3 * DATA + 8 + 2 * track, offset);
    }
    table
}

/// Items of every sort.
pub fn items() -> Vec<u8> {
    texts(&[
        b"\x02\0\0\0\x01\0Title\0\x81\0Phonetic\0",
        b"\x01\0\0\0\x08\0Unknown\0",
        b"\x01\0\0\0\0\0Type 0\0",
        b"\x02\0\0\0\x80\0Unknown\0\x88\0and more\0",
        b"\x02\0\0\0\x09\0\0\x03\0Songwriter\0",
        b"\x03\0\0\0\x02\0First\0\x02\0\0\x02\0Last\0",
        b"\0\0\0\0\x01\0No item\0",
        b"\xff\0\0\0\x07\0More are said than there are\xe9\x1f\0",
    ])
}

/// A string of more than 4,096 bytes: the next item, of this type, begins inside it.
pub fn long_string(next: u8) -> Vec<u8> {
    let text = [b"\x02\0\0\0\x01\0", &[b'a'; 4096][..], &[next], b"bcd\0"].concat();
    let mut table = texts(&[&text]);
    table.resize(7 * DATA, 0);
    with(table, 3 * DATA + 600, &text)
}

/// A string of an item of this type up to the table's end.
fn to_the_end(kind: u8) -> Vec<u8> {
    let table = texts(&[b"\x01\0\0\0\x01\0A\0", b""]);
    let end = table.len();
    let table = with(table, end - 12, &[b"\x01\0\0\0", &[kind][..], b"\0to end"].concat());
    with(table, 3 * DATA + 10, &((end - 12 - 3 * DATA) as u16).to_be_bytes())
}

/// Three texts next to each other, of an item each: their strings have 4,097, 4,096 and 4,095 bytes.
const NEXT_TO_MOST: [u8; 7] = [1, 1, 1, 0, 3, 1, 2];

/// Strings of 4,097, 4,096 and 4,095 bytes before a zero byte, as many before the table's end, and a few
/// bytes before either. The area's texts begin where four of them do.
pub fn ends() -> Vec<u8> {
    let long = [&NEXT_TO_MOST[..], &[b'a'; 4096]].concat();
    let short = b"\x02\0\0\0\x81\0short\0\x82\0zero\0";
    let mut table = texts(&[&[short, &long[..], b"\0"].concat()]);
    table.resize(8 * DATA, 0);
    let [first, end] = [3 * DATA + 600, 8 * DATA];
    let (zero, last) = (first + short.len(), end - long.len());
    put(&mut table, first, &[short, &long[..], b"\0"].concat());
    put(&mut table, last, &long);
    let starts = [zero, zero + 1, zero + 2, last, last + 1, last + 2, end - 10, first];
    put(&mut table, 69, &[starts.len() as u8]);
    for (track, start) in starts.into_iter().enumerate() {
        put_lsn(&mut table, DATA, track, 1000, 1);
        put_times(&mut table, 2 * DATA, track, [0, 0, 0], [0, 1, 0]);
        put16(&mut table, 3 * DATA + 8 + 2 * track, (start - 3 * DATA) as u16);
    }
    for (item, place) in [zero + 7, end - 4096, end - 10, first + 6].into_iter().enumerate() {
        put16(&mut table, 144 + 2 * item, place as u16);
    }
    table
}

/// 255 tracks with three warnings each, 12 the last, and one of the area: 766.
fn offsets_past_the_end() -> Vec<u8> {
    let mut table = with(table(&[b"SACDTRL1", b"SACDTRL2", b"SACDTTxt"], 4), 69, &[255]);
    put(&mut table, 20, &[5]);
    for track in 0..255 {
        put_lsn(&mut table, DATA, track, 0, 1);
        put_times(&mut table, 2 * DATA, track, [2, 0, 0], [0, 0, 1]);
        put16(&mut table, 3 * DATA + 8 + 2 * track, 2045);
    }
    table
}

/// So many locales, one after the other.
pub fn locales(channels: u8) -> Vec<u8> {
    let mut table = with(example(), 80, &[channels]);
    for locale in 0..11 {
        put(&mut table, 88 + 4 * locale, &[b'a' + locale as u8, b'z', locale as u8, 1]);
    }
    table
}

/// Both lists and the text block twice: the last lists and the first block count.
fn twice() -> Vec<u8> {
    let order = [b"SACDTTxt", b"SACDTRL1", b"SACDTRL2", b"SACDTRL2", b"SACDTRL1", b"SACDTTxt"];
    let mut table = table(&order, 8);
    put_lsn(&mut table, 2 * DATA, 0, 1, 1);
    put_times(&mut table, 3 * DATA, 0, [0, 0, 1], [0, 0, 2]);
    put16(&mut table, DATA + 8, 65_535);
    table
}

/// Lists of ISRCs and genres, twice; the second has an entry.
pub fn isrcs() -> Vec<u8> {
    let order = [b"SACD_IGL", b"SACDTRL2", b"SACD_IGL", b"SACDTRL1"];
    let table = table(&order, 7);
    with(table, 4 * DATA + 8, b"GBAAA2500001")
}

/// The area's four texts, in set 3.
pub fn area_texts(code: u8) -> Vec<u8> {
    let mut table = with(example(), 90, &[code]);
    put(&mut table, 160, b"Description\0Copyright \xa9\0");
    for (item, place) in [160, 172, 0, 6143].into_iter().enumerate() {
        put16(&mut table, 144 + 2 * item, place);
    }
    with(table, 6143, b"x")
}

/// Tables that are refused by 7, and lengths next to them.
fn lengths() -> Vec<Made> {
    vec![
        ("bytes-0", of_length(0)),
        ("bytes-1", of_length(1)),
        ("bytes-2047", of_length(2047)),
        ("bytes-2048", of_length(2048)),
        ("bytes-2049", of_length(2049)),
        ("bytes-6143", of_length(6143)),
        ("bytes-6145", of_length(6145)),
        ("bytes-65535", of_length(65_535)),
        ("bytes-65536", of_length(65_536)),
        ("bytes-65537", of_length(65_537)),
        ("bytes-67584", of_length(67_584)),
    ]
}

/// Tables that are skipped, and those next to them that are not.
fn skips() -> Vec<Made> {
    let lists: [&[u8; 8]; 2] = [b"SACDTRL1", b"SACDTRL2"];
    let igl: [&[u8; 8]; 3] = [b"SACDTRL1", b"SACDTRL2", b"SACD_IGL"];
    let stopped: [&[u8; 8]; 3] = [b"SACDTRL1", b"SACDTRL3", b"SACDTRL2"];
    let access: [&[u8; 8]; 3] = [b"SACDTRL2", b"SACDTRL1", b"SACD_ACC"];
    vec![
        ("skip-8", with(example(), 7, b"c")),
        ("skip-8-master", with(example(), 0, b"SACDMTOC")),
        ("skip-9-none", with(vec![0; 3 * DATA], 0, b"MULCHTOC")),
        ("skip-9-list-1", table(&[b"SACDTRL2", b"SACDTTxt"], 3)),
        ("skip-9-list-2", table(&[b"SACDTRL1", b"SACDTTxt"], 3)),
        ("skip-9-stopped", table(&stopped, 4)),
        ("skip-9-cut", table(&lists, 2)),
        ("skip-10", table(&igl, 4)),
        ("skip-10-not-without-tracks", with(table(&igl, 4), 69, &[0])),
        ("skip-10-not-whole", table(&igl, 5)),
        ("skip-11", with(example(), 76, &999u32.to_be_bytes())),
        ("skip-11-not-equal", with(example(), 76, &1000u32.to_be_bytes())),
        ("access-past-the-end", table(&access, 4)),
    ]
}

/// All tables with a name.
pub fn named() -> Vec<Named> {
    let mut named = vec![("example", example())];
    named.extend(lengths());
    named.extend(skips());
    named.extend([
        ("multichannel", with(example(), 0, b"MULCHTOC")),
        ("lists-reversed", table(&[b"SACDTRL2", b"SACDTRL1"], 3)),
        ("structures-twice", twice()),
        ("isrcs-twice", isrcs()),
        ("tracks-0", tracks(0)),
        ("tracks-1", tracks(1)),
        ("tracks-254", tracks(254)),
        ("tracks-255", tracks(255)),
        ("locales-1", locales(1)),
        ("locales-10", locales(10)),
        ("locales-11", locales(11)),
        ("area-texts", area_texts(0)),
        ("area-texts-set-3", area_texts(11)),
        ("text-offsets", offsets()),
        ("text-items", items()),
        ("text-items-set-6", with(items(), 90, &[6])),
        ("text-long", long_string(2)),
        ("text-replaced", long_string(1)),
        ("text-to-the-end", to_the_end(1)),
        ("text-unknown-to-the-end", to_the_end(8)),
        ("text-ends", ends()),
        ("playtimes", playtimes()),
        ("addresses", addresses()),
        ("frequency", with(example(), 20, &[5])),
        ("warnings-766", offsets_past_the_end()),
        ("warnings-1021", most_warnings()),
    ]);
    named.into_iter().map(|(name, table)| (name.to_string(), table)).collect()
}
