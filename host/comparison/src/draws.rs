//! Items drawn one by one: those of every track's text, and from any place of any bytes.

use crate::lone::Lone;
use crate::plain::{self, Item};
use crate::rust;
use crate::sectors::Buffer;
use crate::tally::Kind;
use generate::Rng;
use generate::endings::end_at;
use generate::table::Structure;
use generate::text::any_string;
use oracle::toc::TrackTextItem;
use scarletbook::raw::{DrawAnswer, TextPlace, Track, draw_at, string_end};

/// What draws to the end give: the items, how the string of each ended, and the texts of the last nonempty
/// of each known type.
#[derive(Debug, PartialEq)]
struct Text {
    items: Vec<Item>,
    ends: Vec<u8>,
    places: [TextPlace; 14],
    texts: Vec<Option<String>>,
}

pub struct Draws {
    pub text: Kind,
    pub any: Kind,
}

impl Draws {
    pub fn new() -> Self {
        let items = ["no item", "one item", "many items", "empty", "unknown", "repeated"];
        let ends = ["at the end", "just behind the end", "far out", "largest place", "no table"];
        let counts = ["none left", "one left", "largest count", "last item"];
        Draws {
            text: Kind::new("draws, texts", &items),
            any: Kind::new("draw_at", &[&["found"], &ends[..], &counts[..]].concat()),
        }
    }

    /// The texts of an accepted table.
    pub fn cases(&mut self, table: &[u8], lone: &Lone) {
        let Some(rust) = &lone.rust else { return };
        let block = plain::first_of(&plain::met(table), Structure::TrackText);
        for (i, (rust, record)) in rust.tracks.iter().zip(&lone.tracks).enumerate() {
            if let Some(at) = plain::text_at(table, block, i) {
                let texts = TrackTextItem::ALL.iter().map(|&item| rust.text.get(item));
                let texts = texts.map(|text| text.map(str::to_string)).collect();
                self.text_case(table, at, record, texts, lone.area.text_charset);
            }
        }
    }

    fn text_case(
        &mut self,
        table: &[u8],
        at: usize,
        record: &Track,
        texts: Vec<Option<String>>,
        code: u8,
    ) {
        let items = drawn_to_the_end(table, at + 4, table[at].into());
        let places = plain::places(table, &items);
        let decoded = places.iter().map(|text| match text.place {
            0 => None,
            place => rust::decode(plain::string_at(table, place as usize), code),
        });
        let ends = items.iter().map(|item| string_end(table, item.place)).collect();
        let library = Text { items, ends, places, texts: decoded.collect() };
        let items = plain::track_items(table, Some(at));
        let count = items.len();
        let kind = &mut self.text;
        kind.class_if("no item", count == 0);
        kind.class_if("one item", count == 1);
        kind.class_if("many items", count > 5);
        kind.class_if("empty", items.iter().any(|item| item.len == 0));
        kind.class_if("unknown", items.iter().any(|item| plain::index(item.kind).is_none()));
        kind.class_if("repeated", items.windows(2).any(|two| two[0].kind == two[1].kind));
        let ends = items.iter().map(|item| end_at(table, item.place)).collect();
        let rust = Text { items, ends, places: record.text, texts };
        kind.case(&("table", Buffer(table), "text at", at), 0, library, rust);
    }

    /// One draw from any place of any bytes.
    pub fn any_case(&mut self, rng: &mut Rng) {
        let (table, place) = any_string(rng);
        let next = match rng.below(4) {
            0 => table.len().saturating_sub(rng.below(4)),
            _ => place,
        };
        let left = rng.pick(&[0, 1, 1, 2, 3, 255, usize::MAX]);
        let expected = plain_draw(&table, next, left);
        let kind = &mut self.any;
        let question = ("table", Buffer(&table), "next", next, "left", left);
        kind.record_case(&question, 0, draw_at(&table, next, left), expected);
        kind.class_if("found", expected.found == 1);
        kind.class_if("last item", expected.found == 1 && expected.next == table.len());
        kind.class_if("at the end", next == table.len() && next > 0 && left > 0);
        kind.class_if("just behind the end", next == table.len() + 1 && left > 0);
        kind.class_if("far out", next > table.len() + 1 && left > 0);
        kind.class_if("largest place", next == usize::MAX && left > 0);
        kind.class_if("no table", table.is_empty() && left > 0);
        kind.class_if("none left", left == 0 && next < table.len().saturating_sub(1));
        kind.class_if("one left", left == 1 && expected.found == 1);
        kind.class_if("largest count", left == usize::MAX && expected.found == 1);
    }
}

/// The items of draws up to the first that finds none. No text has more than 255.
fn drawn_to_the_end(table: &[u8], next: usize, left: usize) -> Vec<Item> {
    let mut items = vec![];
    let mut drawn = draw_at(table, next, left);
    while drawn.found == 1 && items.len() <= 255 {
        items.push(Item { kind: drawn.kind, place: drawn.place, len: drawn.len });
        drawn = draw_at(table, drawn.next, drawn.left);
    }
    items
}

/// One draw, by the document.
fn plain_draw(table: &[u8], next: usize, left: usize) -> DrawAnswer {
    match plain::items(table, next, left.min(1)).first() {
        Some(&(Item { kind, place, len }, behind)) => {
            let left = if behind < table.len() { left - 1 } else { 0 };
            DrawAnswer { found: 1, kind, place, len, next: behind, left }
        }
        None => DrawAnswer { next, left, ..DrawAnswer::default() },
    }
}
