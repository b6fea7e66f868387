//! The classes of the discs that were read: copies, slots, and the master table.

use super::answer::{Answer, data, is_read, readable};
use crate::lone::Lone;
use crate::plain;
use crate::tally::Kind;
use generate::disc::{BEHIND, Disc, MASTER, MASTER_COPIES, MASTER_SECTORS};
use generate::layout::DATA;
use scarletbook::raw::{Area, AreaPointer, Lsn};
use std::ops::Range;

/// Classes of accepted discs and of silent ones.
pub struct Shapes {
    /// Of slots that are used, with at most 128 sectors.
    pub copies: Kind,
    pub slots: Kind,
    pub master: Kind,
}

fn copies_kind() -> Kind {
    let both = ["equal", "unequal", "the last byte alone", "overlapping", "the same address"];
    let first = ["first past the end", "second past the end", "both past the end"];
    let second = ["no second", "no second, first past the end", "second used", "second below"];
    let ends = ["to the last sector", "one sector too far", "largest address", "sum above 32 bits"];
    let places = ["over the master", "from the master on", "over its copies", "below the master"];
    let skips = ["skip fills its region", "first skipped, second sound", "bad first signature"];
    let counts = ["1 sector", "2 sectors", "128 sectors"];
    let classes = [&both[..], &first, &second, &ends, &places, &skips, &counts];
    Kind::new("discs, copies", &classes.concat())
}

fn slots_kind() -> Kind {
    let kinds = ["TWOCHTOC in 1", "MULCHTOC in 1", "TWOCHTOC in 2", "MULCHTOC in 2"];
    let yields = ["both yield", "1 alone yields", "2 alone yields", "neither yields"];
    let unused = ["no address", "no sectors", "129 sectors", "more sectors", "both unused"];
    let same = ["the same copy", "copies of two slots overlap"];
    Kind::new("discs, slots", &[&kinds[..], &yields, &unused, &same].concat())
}

fn master_kind() -> Kind {
    let copies = ["520 equal", "520 unequal", "520 missing"];
    let others = ["530 equal", "530 unequal", "530 missing", "17 by 530 alone", "no 17"];
    let texts = ["texts", "no SACDText", "no SACDText, no channels", "texts without channels"];
    let places = ["text at 2,047", "text to the end", "text place 2,048", "text past it"];
    let fields = ["no locale", "8 locales", "9 channels", "manufacturer", "no manufacturer"];
    Kind::new("discs, masters", &[&copies[..], &others, &texts, &places, &fields].concat())
}

impl Shapes {
    pub fn new() -> Self {
        Shapes { copies: copies_kind(), slots: slots_kind(), master: master_kind() }
    }

    /// Counts a disc for its classes.
    pub fn count(&mut self, disc: &Disc, answer: &Answer) {
        let pointers = [answer.master.two_channel, answer.master.multichannel];
        for (slot, pointer) in pointers.iter().enumerate() {
            count_pointer(&mut self.slots, pointer);
            if is_read(pointer) {
                self.copies.cases += 1;
                count_pair(&mut self.copies, disc, pointer);
                count_ends(&mut self.copies, disc, pointer);
                count_chosen(&mut self.copies, &answer.areas[slot]);
                count_skip(&mut self.copies, disc, pointer, answer, slot);
            }
        }
        count_slots(&mut self.slots, answer, &pointers);
        self.slots.class_if("copies of two slots overlap", tables_overlap(answer));
        count_copies(&mut self.master, disc, answer);
        count_texts(&mut self.master, disc, answer);
    }
}

fn meet(a: &Range<usize>, b: &Range<usize>) -> bool {
    a.start < b.end && b.start < a.end
}

fn sectors_of(area: &Area) -> Range<usize> {
    let start = area.origin.toc_lsn.0 as usize;
    start..start + usize::from(area.origin.toc_sectors)
}

fn tables_overlap(answer: &Answer) -> bool {
    let [first, second] = answer.areas.each_ref().map(sectors_of);
    first != second && meet(&first, &second)
}

fn count_pointer(kind: &mut Kind, pointer: &AreaPointer) {
    let AreaPointer { toc1_lsn, toc_sectors, .. } = *pointer;
    kind.class_if("no address", toc1_lsn == Lsn(0) && toc_sectors > 0);
    kind.class_if("no sectors", toc1_lsn != Lsn(0) && toc_sectors == 0);
    kind.class_if("129 sectors", toc1_lsn != Lsn(0) && toc_sectors == 129);
    kind.class_if("more sectors", toc1_lsn != Lsn(0) && toc_sectors > 129);
}

/// How the two copies lie to each other.
fn count_pair(kind: &mut Kind, disc: &Disc, pointer: &AreaPointer) {
    let AreaPointer { toc1_lsn: first, toc2_lsn: second, toc_sectors: count } = *pointer;
    let named = second != Lsn(0);
    match [first, second].map(|lsn| readable(disc, lsn, count)) {
        [true, _] if !named => kind.class("no second", 1),
        [false, _] if !named => kind.class("no second, first past the end", 1),
        [false, true] => kind.class("first past the end", 1),
        [true, false] => kind.class("second past the end", 1),
        [false, false] => kind.class("both past the end", 1),
        [true, true] if first == second => kind.class("the same address", 1),
        [true, true] => {
            let [one, other] = [first, second].map(|lsn| data(disc, lsn, count));
            kind.class_if("equal", one == other);
            kind.class_if("unequal", one != other);
            let last = one.len() - 1;
            kind.class_if("the last byte alone", one != other && one[..last] == other[..last]);
            kind.class_if("overlapping", first.0.abs_diff(second.0) < u32::from(count));
            kind.class_if("second below", second < first);
        }
    }
}

/// Where the first copy ends.
fn count_ends(kind: &mut Kind, disc: &Disc, pointer: &AreaPointer) {
    let AreaPointer { toc1_lsn, toc2_lsn, toc_sectors } = *pointer;
    let end = toc1_lsn.0 as usize + usize::from(toc_sectors);
    kind.class_if("to the last sector", end == disc.sectors());
    kind.class_if("one sector too far", end == disc.sectors() + 1);
    kind.class_if("largest address", [toc1_lsn, toc2_lsn].contains(&Lsn(u32::MAX)));
    kind.class_if("sum above 32 bits", end > u32::MAX as usize);
    kind.class_if("1 sector", toc_sectors == 1);
    kind.class_if("2 sectors", toc_sectors == 2);
}

/// Where the copy of an area lies.
fn count_chosen(kind: &mut Kind, area: &Area) {
    if area.present == 0 {
        return;
    }
    let sectors = sectors_of(area);
    let master = MASTER..MASTER + MASTER_SECTORS;
    kind.class_if("over the master", meet(&sectors, &master));
    kind.class_if("from the master on", master.contains(&sectors.start));
    kind.class_if("over its copies", meet(&sectors, &(MASTER_COPIES[0]..BEHIND)));
    kind.class_if("below the master", sectors.end <= MASTER);
    kind.class_if("128 sectors", sectors.len() == 128);
}

/// A chosen copy that is skipped, or is the second.
fn count_skip(kind: &mut Kind, disc: &Disc, pointer: &AreaPointer, answer: &Answer, slot: usize) {
    let AreaPointer { toc1_lsn, toc2_lsn, toc_sectors } = *pointer;
    let area = &answer.areas[slot];
    let second = area.origin.toc_lsn == toc2_lsn && toc1_lsn != toc2_lsn;
    kind.class_if("second used", area.present == 1 && second);
    let Some(table) = answer.tables[slot].as_deref().filter(|_| area.present == 0) else { return };
    kind.class("skip fills its region", 1);
    let both = [toc1_lsn, toc2_lsn].iter().all(|&lsn| readable(disc, lsn, toc_sectors));
    if both && toc2_lsn != Lsn(0) && Lone::read(&data(disc, toc2_lsn, toc_sectors)).rust.is_some() {
        kind.class("first skipped, second sound", 1);
        let signed = table.starts_with(b"TWOCHTOC") || table.starts_with(b"MULCHTOC");
        kind.class_if("bad first signature", !signed);
    }
}

fn count_slots(kind: &mut Kind, answer: &Answer, pointers: &[AreaPointer; 2]) {
    kind.cases += 1;
    let [first, second] = answer.areas;
    kind.class_if("TWOCHTOC in 1", first.kind == 1);
    kind.class_if("MULCHTOC in 1", first.kind == 2);
    kind.class_if("TWOCHTOC in 2", second.kind == 1);
    kind.class_if("MULCHTOC in 2", second.kind == 2);
    match [first.present, second.present] {
        [1, 1] => kind.class("both yield", 1),
        [1, 0] => kind.class("1 alone yields", 1),
        [0, 1] => kind.class("2 alone yields", 1),
        _ => kind.class("neither yields", 1),
    }
    let unused = |pointer: &AreaPointer| pointer.toc1_lsn == Lsn(0) || pointer.toc_sectors == 0;
    kind.class_if("both unused", pointers.iter().all(unused));
    let same = first.origin.toc_lsn == second.origin.toc_lsn;
    kind.class_if("the same copy", first.present == 1 && second.present == 1 && same);
}

/// The copies of the master table.
fn count_copies(kind: &mut Kind, disc: &Disc, answer: &Answer) {
    kind.cases += 1;
    let master = disc.master();
    let classes =
        [["520 equal", "520 unequal", "520 missing"], ["530 equal", "530 unequal", "530 missing"]];
    let mut unequal = [false; 2];
    for (at, lsn) in MASTER_COPIES.map(|lsn| Lsn(lsn as u32)).into_iter().enumerate() {
        let [equal, differs, missing] = classes[at];
        if !readable(disc, lsn, MASTER_SECTORS as u16) {
            kind.class(missing, 1);
            continue;
        }
        unequal[at] = data(disc, lsn, MASTER_SECTORS as u16) != master;
        kind.class(if unequal[at] { differs } else { equal }, 1);
    }
    kind.class_if("17 by 530 alone", unequal == [false, true]);
    kind.class_if("no 17", answer.words.iter().all(|word| word >> 16 != 17));
}

fn count_texts(kind: &mut Kind, disc: &Disc, answer: &Answer) {
    let master = &answer.master;
    let sector = disc.data(MASTER + 1);
    let signed = sector.starts_with(b"SACDText");
    let channels = master.text_channel_count;
    let any = master.text.iter().any(|text| text.place > 0);
    kind.class_if("texts", any);
    kind.class_if("texts without channels", any && channels == 0);
    kind.class_if("no SACDText", !signed && channels > 0);
    kind.class_if("no SACDText, no channels", !signed && channels == 0);
    for item in (0..master.text.len()).filter(|_| signed) {
        let place = plain::number16(sector, 16 + 2 * item);
        let end = place + plain::string_at(sector, place).len();
        kind.class_if("text at 2,047", master.text[item].place as usize == DATA - 1);
        kind.class_if("text to the end", place < DATA && end == DATA);
        kind.class_if("text place 2,048", place == DATA);
        kind.class_if("text past it", place > DATA);
    }
    kind.class_if("no locale", master.locale_count == 0);
    kind.class_if("8 locales", master.locale_count == 8);
    kind.class_if("9 channels", channels == 9);
    kind.class_if("manufacturer", master.manufacturer == 1);
    kind.class_if("no manufacturer", master.manufacturer == 0);
}
