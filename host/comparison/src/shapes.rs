//! The classes of the tables that were read: walks, skips, warnings, lists, texts and times.

use crate::lone::Lone;
use crate::plain::{self, Item};
use crate::tally::Kind;
use generate::layout::DATA;
use generate::table::{Structure, orders};
use generate::text::MOST;
use std::collections::HashSet;

use Structure::{Access, IsrcGenre, TrackList1, TrackList2, TrackText};

/// What the walk met, and where.
type Met = [(Structure, usize)];

const SKIPS: [(u32, &str); 4] = [(8, "skip 8"), (9, "skip 9"), (10, "skip 10"), (11, "skip 11")];

const WARNINGS: [(u32, &str); 6] = [
    (12, "warning 12"),
    (13, "warning 13"),
    (14, "warning 14"),
    (15, "warning 15"),
    (18, "warning 18"),
    (19, "warning 19"),
];

const TWICE: [(Structure, &str); 5] = [
    (TrackText, "TTxt twice"),
    (IsrcGenre, "IGL twice"),
    (Access, "ACC twice"),
    (TrackList1, "TRL1 twice"),
    (TrackList2, "TRL2 twice"),
];

const LAST: [(Structure, &str); 4] = [
    (TrackText, "TTxt at the end"),
    (IsrcGenre, "IGL at the end"),
    (TrackList1, "TRL1 at the end"),
    (TrackList2, "TRL2 at the end"),
];

const TRACKS: [(u16, &str); 4] =
    [(0, "no track"), (1, "1 track"), (254, "254 tracks"), (255, "255 tracks")];

/// Classes of tables, of tracks and of items. Those of walks, lists, tracks and items are of
/// accepted tables.
pub struct Shapes {
    pub walk: Kind,
    pub head: Kind,
    pub tracks: Kind,
    pub items: Kind,
    /// The walks that met no sub-structure twice.
    orders: HashSet<Vec<Structure>>,
}

fn walk_kind() -> Kind {
    let walks = ["all 326 orders", "ACC before a list", "ACC past the end", "unreached"];
    let missing = ["TRL1 missing", "TRL2 missing", "both missing", "no structure"];
    let beyond = ["IGL beyond, no track", "IGL beyond, 1 track", "IGL beyond, more tracks"];
    let order = ["8 before 9", "9 before 11", "10 before 11", "end LSN one below"];
    let met = [names(&TWICE), names(&LAST), names(&SKIPS)].concat();
    let classes = [&walks[..], &missing[..], &beyond[..], &order[..], &met[..]];
    Kind::new("tables, walks", &classes.concat())
}

fn head_kind() -> Kind {
    let head = ["TWOCHTOC", "MULCHTOC", "equal LSNs", "128 sectors"];
    let locales = ["no locale", "10 locales", "11 text channels"];
    let places = ["text place 0", "text at the last byte", "text at the end", "text past it"];
    let counts = [names(&TRACKS), names(&WARNINGS)].concat();
    let classes = [&head[..], &locales[..], &places[..], &counts[..]];
    Kind::new("tables, heads", &classes.concat())
}

fn tracks_kind() -> Kind {
    let times = ["sum is the play time", "sum one above", "start above", "start at it, 0"];
    let lsns = ["start LSN", "end LSN", "below the start LSN", "above the end LSN"];
    let listed = ["ISRC", "no ISRC", "no IGL", "three warnings", "four warnings"];
    let offsets = ["offset 0", "last offset", "offset one past", "no TTxt"];
    let classes = [&times[..], &lsns[..], &listed[..], &offsets[..]];
    Kind::new("tables, tracks", &classes.concat())
}

fn items_kind() -> Kind {
    let kinds = ["known", "unknown", "type 0", "repeated", "empty", "13 once for several"];
    let counts = ["count 0", "count above", "count below"];
    let strings = ["4,096 bytes and more", "to the end", "one byte at the end"];
    Kind::new("tables, items", &[&kinds[..], &counts[..], &strings[..]].concat())
}

impl Shapes {
    pub fn new() -> Self {
        Shapes {
            walk: walk_kind(),
            head: head_kind(),
            tracks: tracks_kind(),
            items: items_kind(),
            orders: HashSet::new(),
        }
    }

    /// Counts a table for its classes.
    pub fn count(&mut self, table: &[u8], lone: &Lone) {
        let met = plain::met(table);
        self.walk.cases += 1;
        self.note_order(&met);
        count_skips(&mut self.walk, table, lone, &met);
        if lone.rust.is_none() {
            self.walk.refused += 1;
            return;
        }
        count_walk(&mut self.walk, table, &met);
        count_head(&mut self.head, table, lone);
        self.count_tracks(table, lone, &met);
    }

    fn note_order(&mut self, met: &Met) {
        let order: Vec<_> = met.iter().map(|found| found.0).collect();
        let once: HashSet<_> = order.iter().collect();
        if once.len() == order.len() && self.orders.insert(order) {
            self.walk.class_if("all 326 orders", self.orders.len() == orders().len());
        }
    }

    fn count_tracks(&mut self, table: &[u8], lone: &Lone, met: &Met) {
        let block = plain::first_of(met, TrackText);
        for track in 0..lone.tracks.len() {
            self.tracks.cases += 1;
            count_times(&mut self.tracks, table, lone, met, track);
            count_lists(&mut self.tracks, lone, met, track);
            count_offset(&mut self.tracks, table, block, track);
            if let Some(text) = plain::text_at(table, block, track) {
                self.items.cases += 1;
                count_items(&mut self.items, table, text);
            }
        }
    }
}

fn names<N>(classes: &[(N, &'static str)]) -> Vec<&'static str> {
    classes.iter().map(|class| class.1).collect()
}

fn count_skips(kind: &mut Kind, table: &[u8], lone: &Lone, met: &Met) {
    let first = lone.words.first().map_or(0, |word| word >> 16);
    for (code, class) in SKIPS {
        kind.class_if(class, first == code);
    }
    let missing = [TrackList1, TrackList2].map(|list| plain::last_of(met, list).is_none());
    kind.class_if("TRL1 missing", first == 9 && missing == [true, false]);
    kind.class_if("TRL2 missing", first == 9 && missing == [false, true]);
    kind.class_if("both missing", first == 9 && missing == [true, true] && !met.is_empty());
    kind.class_if("no structure", first == 9 && met.is_empty());
    let [start, end] = [72, 76].map(|at| plain::number32(table, at));
    let reversed = end < start;
    kind.class_if("end LSN one below", first == 11 && end + 1 == start);
    kind.class_if("8 before 9", first == 8 && missing.contains(&true));
    kind.class_if("9 before 11", first == 9 && reversed);
    kind.class_if("10 before 11", first == 10 && reversed);
    let igl = plain::last_of(met, IsrcGenre);
    if igl.is_some_and(|at| at + 2 * DATA > table.len()) && matches!(first, 0 | 10 | 18) {
        kind.class_if("IGL beyond, no track", first != 10 && table[69] == 0);
        kind.class_if("IGL beyond, 1 track", first == 10 && table[69] == 1);
        kind.class_if("IGL beyond, more tracks", first == 10 && table[69] > 1);
    }
}

fn count_walk(kind: &mut Kind, table: &[u8], met: &Met) {
    for (structure, class) in TWICE {
        kind.class_if(class, met.iter().filter(|found| found.0 == structure).count() > 1);
    }
    for (structure, class) in LAST {
        let end = plain::last_of(met, structure).map(|at| at + structure.sectors() * DATA);
        kind.class_if(class, end == Some(table.len()));
    }
    let access = plain::first_of(met, Access);
    let list = plain::last_of(met, TrackList1).max(plain::last_of(met, TrackList2));
    kind.class_if("ACC before a list", access.is_some_and(|at| Some(at) < list));
    kind.class_if("ACC past the end", access.is_some_and(|at| at + 32 * DATA > table.len()));
    let behind = met.iter().map(|(structure, at)| at + structure.sectors() * DATA).max();
    let mut rest = table.get(behind.unwrap_or(DATA)..).unwrap_or_default().chunks_exact(DATA);
    kind.class_if("unreached", rest.any(|sector| plain::structure(&sector[..8]).is_some()));
}

fn count_head(kind: &mut Kind, table: &[u8], lone: &Lone) {
    let area = &lone.area;
    kind.cases += 1;
    kind.class_if("TWOCHTOC", area.kind == 1);
    kind.class_if("MULCHTOC", area.kind == 2);
    kind.class_if("equal LSNs", area.audio_start_lsn == area.audio_end_lsn);
    kind.class_if("128 sectors", area.origin.toc_sectors == 128);
    kind.class_if("no locale", area.locale_count == 0);
    kind.class_if("10 locales", area.locale_count == 10);
    kind.class_if("11 text channels", area.text_channel_count == 11);
    for (count, class) in TRACKS {
        kind.class_if(class, area.track_count == count);
    }
    for (code, class) in WARNINGS {
        kind.class(class, lone.words.iter().filter(|&&word| word >> 16 == code).count());
    }
    for item in 0..4 {
        let place = plain::number16(table, 144 + 2 * item);
        kind.class_if("text place 0", place == 0);
        kind.class_if("text at the last byte", area.text[item].place as usize + 1 == table.len());
        kind.class_if("text at the end", place == table.len());
        kind.class_if("text past it", place == table.len() + 1);
    }
}

fn count_times(kind: &mut Kind, table: &[u8], lone: &Lone, met: &Met, track: usize) {
    let Some(list) = plain::last_of(met, TrackList2) else { return };
    let start = plain::frame_number(table, list + 8 + 4 * track);
    let duration = plain::frame_number(table, list + 1028 + 4 * track);
    let playtime = plain::frame_number(table, 64);
    kind.class_if("sum is the play time", start + duration == playtime && duration > 0);
    kind.class_if("sum one above", start + duration == playtime + 1 && start <= playtime);
    kind.class_if("start above", start > playtime);
    kind.class_if("start at it, 0", start == playtime && duration == 0);
    let number = track as u32 + 1;
    let warnings = lone.words.iter().filter(|&&word| word & 255 == number).count();
    kind.class_if("three warnings", warnings == 3);
    kind.class_if("four warnings", warnings == 4);
}

fn count_lists(kind: &mut Kind, lone: &Lone, met: &Met, track: usize) {
    let (area, record) = (&lone.area, &lone.tracks[track]);
    let (start, end) = (area.audio_start_lsn.0, area.audio_end_lsn.0);
    kind.class_if("start LSN", record.start_lsn.0 == start);
    kind.class_if("end LSN", record.start_lsn.0 == end);
    kind.class_if("below the start LSN", record.start_lsn.0.checked_add(1) == Some(start));
    kind.class_if("above the end LSN", record.start_lsn.0.checked_sub(1) == Some(end));
    let igl = plain::last_of(met, IsrcGenre);
    kind.class_if("ISRC", record.has_isrc == 1);
    kind.class_if("no ISRC", record.has_isrc == 0 && igl.is_some());
    kind.class_if("no IGL", igl.is_none());
}

fn count_offset(kind: &mut Kind, table: &[u8], block: Option<usize>, track: usize) {
    let Some(block) = block else { return kind.class("no TTxt", 1) };
    let offset = plain::number16(table, block + 8 + 2 * track);
    kind.class_if("offset 0", offset == 0);
    kind.class_if("last offset", offset != 0 && block + offset + 4 == table.len());
    kind.class_if("offset one past", offset != 0 && block + offset + 3 == table.len());
}

fn count_items(kind: &mut Kind, table: &[u8], text: usize) {
    let items = plain::track_items(table, Some(text));
    let count = usize::from(table[text]);
    kind.class_if("count 0", count == 0);
    kind.class_if("count above", count > items.len());
    kind.class_if("count below", plain::items(table, text + 4, count + 1).len() > count);
    let present = |item: &&Item| item.len > 0;
    let unknown = |item: &&Item| plain::index(item.kind).is_none();
    kind.class_if("13 once for several", items.iter().filter(present).filter(unknown).count() > 1);
    for (at, item) in items.iter().enumerate() {
        let known = plain::index(item.kind).is_some();
        kind.class_if("known", known && item.len > 0);
        kind.class_if("unknown", !known && item.len > 0);
        kind.class_if("type 0", item.kind == 0 && item.len > 0);
        kind.class_if("empty", item.len == 0);
        let repeated = items[..at].iter().filter(present).any(|before| before.kind == item.kind);
        kind.class_if("repeated", known && repeated && item.len > 0);
        let behind = item.place + item.len;
        kind.class_if("4,096 bytes and more", item.len == MOST && table.get(behind) > Some(&0));
        kind.class_if("to the end", item.len > 0 && behind == table.len());
    }
    let next = plain::items(table, text + 4, count).last().map_or(text + 4, |last| last.1);
    kind.class_if("one byte at the end", items.len() < count && next + 1 == table.len());
}
