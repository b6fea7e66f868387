//! The listing of a disc, for a person.

use crate::fields::Text;
use crate::reading::Reading;
use scarletbook::raw::frame_number;
use scarletbook::record::{Date, Frame, MasterToc, Timecode};
use scarletbook::{Area, Disc, DiscTextItem, Track, TrackTextItem};

/// Frames in a second.
const FRAME_RATE: u32 = 75;
/// The flag of a disc with a CD layer.
const HYBRID: u8 = 0x80;
/// The characters of a column at most; longer cells stick out.
const WIDEST: usize = 60;

/// What a column has.
#[derive(Clone, Copy)]
enum Kind {
    /// Numbers or times, aligned to the right.
    Number,
    /// Marks of times that were cut, each behind its time.
    Mark,
    /// Texts, aligned to the left.
    Text,
}

/// The columns of a list of tracks: what stands over each, and what it has.
const COLUMNS: [(&str, Kind); 8] = [
    ("Track", Kind::Number),
    ("Start", Kind::Number),
    ("", Kind::Mark),
    ("Duration", Kind::Number),
    ("", Kind::Mark),
    ("Title", Kind::Text),
    ("Performer", Kind::Text),
    ("ISRC", Kind::Text),
];

/// The cells of a line, by column.
type Row = [String; COLUMNS.len()];

/// The lines about a disc; none where there is no disc.
pub fn listing(reading: Reading) -> String {
    let Some(disc) = reading.disc else { return String::new() };
    let mut out = heads(reading, disc);
    for area in disc.areas() {
        out += &format!("\n{}\n", area_head(&area));
        out += &table(&tracks(&area));
    }
    let warnings: Vec<_> = disc.warnings().map(|warning| format!("  {warning}\n")).collect();
    if !warnings.is_empty() {
        out += &format!("\nWarnings\n{}", warnings.concat());
    }
    out
}

/// The lines about the disc as a whole: a name and a value each, without the empty ones.
fn heads(reading: Reading, disc: &Disc) -> String {
    let master = disc.master();
    let text = |item| shown(Text::new(disc.text(item), master.text_charset));
    let lines = [
        ("Format", format!("{} ({})", reading.format, sector_size(reading.format))),
        ("Sectors", reading.sectors.to_string()),
        ("Album", text(DiscTextItem::AlbumTitle)),
        ("Album artist", text(DiscTextItem::AlbumArtist)),
        ("Album catalogue", printable(&master.album_catalog_number.to_string())),
        ("Disc", text(DiscTextItem::DiscTitle)),
        ("Disc artist", text(DiscTextItem::DiscArtist)),
        ("Disc catalogue", printable(&master.disc_catalog_number.to_string())),
        ("Album set", place_in_set(master)),
        ("Date", date(master.date)),
        ("Hybrid", if master.disc_flags & HYBRID != 0 { "yes" } else { "no" }.to_owned()),
    ];
    let lines = lines.iter().filter(|(_, value)| !value.is_empty());
    lines.map(|(name, value)| format!("{name:<17}{value}\n")).collect()
}

fn sector_size(format: u32) -> &'static str {
    match format {
        0 => "2,048 bytes a sector",
        1 => "2,054 bytes a sector",
        _ => "2,064 bytes a sector",
    }
}

fn place_in_set(master: &MasterToc) -> String {
    match (master.album_sequence_number, master.album_set_size) {
        (0, 0) => String::new(),
        (number, size) => format!("disc {number} of {size}"),
    }
}

fn date(date: Date) -> String {
    match date {
        Date { year: 0, month: 0, day: 0 } => String::new(),
        Date { year, month, day } => format!("{year:04}-{month:02}-{day:02}"),
    }
}

fn area_head(area: &Area) -> String {
    let kind = if area.kind == 1 { "two-channel" } else { "multichannel" };
    let tracks = match area.track_count {
        1 => "1 track".to_owned(),
        count => format!("{count} tracks"),
    };
    let layout = layout(area.channel_count, area.area_config);
    let playtime = time(frame_number(area.playtime));
    format!("Area {} ({kind}): {layout}, play time {playtime}, {tracks}", area.slot())
}

/// The layout of the loudspeakers, by the channels and the low three bits of the configuration.
pub fn layout(channel_count: u8, area_config: u8) -> String {
    match (channel_count, area_config & 7) {
        (2, 0) => "stereo".to_owned(),
        (5, 3) => "5 channels (3/2)".to_owned(),
        (6, 4) => "5.1".to_owned(),
        (1, _) => "1 channel".to_owned(),
        (channels, _) => format!("{channels} channels"),
    }
}

/// The lines of an area's tracks, under the names of the columns.
fn tracks(area: &Area) -> Vec<Row> {
    let mut rows = vec![COLUMNS.map(|(name, _)| name.to_owned())];
    rows.extend(area.tracks().map(|track| row(area, &track)));
    rows
}

fn row(area: &Area, track: &Track) -> Row {
    let text = |item| shown(Text::new(track.text(item), area.text_charset));
    let times = track.times;
    [
        track.number.to_string(),
        time(times.start_frame),
        mark(times.start_frame, times.stored_start),
        time(times.duration_frames),
        mark(times.duration_frames, times.stored_duration),
        text(TrackTextItem::Title),
        text(TrackTextItem::Performer),
        track.isrc().map(|isrc| printable(&isrc)).unwrap_or_default(),
    ]
}

/// Rows under a head, their columns aligned. A column that is empty under its head is left out.
fn table(rows: &[Row]) -> String {
    let Some((_, below)) = rows.split_first() else { return String::new() };
    let used = |&column: &usize| below.iter().any(|row| !row[column].is_empty());
    let columns = (0..COLUMNS.len()).filter(used).map(|column| (column, width(rows, column)));
    let columns: Vec<_> = columns.collect();
    let mut out = String::new();
    for row in rows.iter().filter(|_| !below.is_empty()) {
        let cells = columns.iter().map(|&(column, width)| cell(column, &row[column], width));
        out += cells.collect::<String>().trim_end();
        out.push('\n');
    }
    out
}

/// A cell of a column, as wide as it, behind the blanks that part it from the column before.
fn cell(column: usize, text: &str, width: usize) -> String {
    match COLUMNS[column].1 {
        Kind::Number => format!("  {text:>width$}"),
        Kind::Mark => format!(" {text:<width$}"),
        Kind::Text => format!("  {text:<width$}"),
    }
}

/// The characters of a column's longest cell.
fn width(rows: &[Row], column: usize) -> usize {
    let widths = rows.iter().map(|row| row[column].chars().count());
    widths.max().unwrap_or(0).min(WIDEST)
}

/// A frame number as minutes, seconds and frames: mm:ss.ff.
fn time(frame: Frame) -> String {
    let (seconds, frames) = (frame.0 / FRAME_RATE, frame.0 % FRAME_RATE);
    format!("{:02}:{:02}.{frames:02}", seconds / 60, seconds % 60)
}

/// The mark of a time that was cut: the stored one by its own numbers, also seconds above 59 and
/// frames above 74. Empty for a time that was not.
fn mark(kept: Frame, stored: Timecode) -> String {
    if kept == frame_number(stored) {
        return String::new();
    }
    let Timecode { minutes, seconds, frames } = stored;
    format!("(stored {minutes:02}:{seconds:02}.{frames:02})")
}

/// A text as it is shown; empty if it is absent.
fn shown(text: Text) -> String {
    match text {
        Text::Absent => String::new(),
        Text::Decoded(text) => printable(&text),
        Text::NotHeld(set) => format!("(set {set}, not held)"),
        Text::BadMapping(set) => format!("(set {set}, bad mapping)"),
    }
}

/// A text without control characters, which a terminal might obey: U+FFFD stands for each.
pub fn printable(text: &str) -> String {
    text.replace(char::is_control, "\u{fffd}")
}

#[cfg(test)]
mod tests {
    use super::*;
    use scarletbook::raw::cap;

    fn at(frame: u32) -> String {
        time(Frame(frame))
    }

    #[test]
    fn times_are_minutes_seconds_and_frames() {
        assert_eq!([0, 1, 74, 75].map(at), ["00:00.00", "00:00.01", "00:00.74", "00:01.00"]);
        assert_eq!([4499, 4500].map(at), ["00:59.74", "01:00.00"]);
        assert_eq!([449_999, 450_000].map(at), ["99:59.74", "100:00.00"]);
        assert_eq!(at(1_166_880), "259:18.30");
    }

    #[test]
    fn no_control_character_is_shown() {
        for control in ('\0'..' ').chain('\u{7f}'..'\u{a0}') {
            assert_eq!(printable(&format!("a{control}b")), "a\u{fffd}b");
        }
        assert_eq!(printable("Prélude ~\u{a0}ÿ"), "Prélude ~\u{a0}ÿ");
    }

    /// The rows of a table under the names of its columns.
    fn rows<const N: usize>(below: [[&str; COLUMNS.len()]; N]) -> Vec<Row> {
        let head = COLUMNS.map(|(name, _)| name);
        [head].into_iter().chain(below).map(|row| row.map(String::from)).collect()
    }

    #[test]
    fn columns_are_aligned_by_characters() {
        let long = "x".repeat(WIDEST + 1);
        let rows = rows([
            ["1", "00:00.00", "", "100:00.00", "", "Été", "", "A"],
            ["255", "00:00.00", "", "00:00.00", "", "Rondo", "", ""],
            ["3", "", "", "", "", &long, "", "B"],
        ]);
        let wide = |title: &str| format!("{title:<WIDEST$}");
        let lines = [
            format!("  Track     Start   Duration  {}  ISRC\n", wide("Title")),
            format!("      1  00:00.00  100:00.00  {}  A\n", wide("Été")),
            "    255  00:00.00   00:00.00  Rondo\n".to_owned(),
            format!("      3                       {long}  B\n"),
        ];
        assert_eq!(table(&rows), lines.concat());
        assert_eq!(table(&rows[..1]), "");
    }

    #[test]
    fn marks_are_aligned_behind_their_times() {
        let (short, long) = ("(stored 07:20.00)", "(stored 255:255.255)");
        let rows = rows([
            ["1", "00:02.00", "", "04:11.30", "", "Été", "", ""],
            ["2", "04:15.30", "", "00:44.45", long, "Rondo", "", ""],
            ["3", "100:00.00", short, "00:00.00", short, "", "", ""],
        ]);
        let lines = [
            "  Track      Start                    Duration                       Title\n",
            "      1   00:02.00                    04:11.30                       Été\n",
            "      2   04:15.30                    00:44.45 (stored 255:255.255)  Rondo\n",
            "      3  100:00.00 (stored 07:20.00)  00:00.00 (stored 07:20.00)\n",
        ];
        assert_eq!(table(&rows), lines.concat());
    }

    fn timecode([minutes, seconds, frames]: [u8; 3]) -> Timecode {
        Timecode { minutes, seconds, frames }
    }

    #[test]
    fn a_mark_has_the_stored_numbers() {
        let marked = |kept, stored| mark(Frame(kept), timecode(stored));
        assert_eq!(marked(19_500, [4, 20, 0]), "");
        assert_eq!(marked(19_155, [4, 20, 0]), "(stored 04:20.00)");
        assert_eq!(marked(4655, [0, 61, 80]), "");
        assert_eq!(marked(4500, [0, 61, 80]), "(stored 00:61.80)");
        assert_eq!(marked(0, [255, 255, 255]), "(stored 255:255.255)");
    }

    /// Where start and duration together exceed the play time, one of them is cut.
    #[test]
    fn exactly_the_tracks_that_are_cut_have_a_mark() {
        const TIMES: [[u8; 3]; 8] = [
            [0, 0, 0],
            [0, 0, 1],
            [0, 59, 74],
            [0, 59, 75],
            [0, 60, 0],
            [1, 0, 0],
            [1, 0, 1],
            [255, 255, 255],
        ];
        for case in 0..8 * 8 * 8 {
            let chosen = [case / 64, case / 8 % 8, case % 8];
            let [start, duration, playtime] = chosen.map(|i| timecode(TIMES[i]));
            let kept = cap(frame_number(start), frame_number(duration), frame_number(playtime));
            let marks = mark(kept.start_frame, start) + &mark(kept.duration_frames, duration);
            assert_eq!(!marks.is_empty(), kept.past_playtime == 1, "{start:?} {duration:?}");
        }
    }

    #[test]
    fn three_layouts_have_a_name() {
        assert_eq!(
            [(2, 0), (5, 3), (6, 4)].map(|(n, c)| layout(n, c)),
            ["stereo", "5 channels (3/2)", "5.1"]
        );
        assert_eq!(
            [(2, 0xf8), (2, 1), (1, 0)].map(|(n, c)| layout(n, c)),
            ["stereo", "2 channels", "1 channel"]
        );
    }

    #[test]
    fn a_date_of_zeros_and_an_album_without_discs_are_left_out() {
        assert_eq!(date(Date { year: 0, month: 0, day: 0 }), "");
        assert_eq!(date(Date { year: 2003, month: 7, day: 1 }), "2003-07-01");
        assert_eq!(place_in_set(&MasterToc::default()), "");
        let second =
            MasterToc { album_sequence_number: 2, album_set_size: 3, ..MasterToc::default() };
        assert_eq!(place_in_set(&second), "disc 2 of 3");
    }

    #[test]
    fn a_text_that_cannot_be_decoded_has_its_set_named() {
        assert_eq!(shown(Text::NotHeld(3)), "(set 3, not held)");
        assert_eq!(shown(Text::BadMapping(6)), "(set 6, bad mapping)");
        assert_eq!(shown(Text::Absent), "");
        assert_eq!(shown(Text::Decoded("\u{1b}[2J".into())), "\u{fffd}[2J");
    }
}
