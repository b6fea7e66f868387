//! The head of a table: why it is skipped, or its area's record and where its sub-structures begin.

use crate::lone::Lone;
use crate::plain;
use crate::tally::Kind;
use generate::Rng;
use generate::layout::DATA;
use generate::table::Structure;
use scarletbook::raw::{Area, Chain, Lsn, TableHead, TableOrigin, table_head};

pub fn kind() -> Kind {
    let skips = ["not skipped", "skip 8", "skip 9", "skip 10", "skip 11", "bytes behind the table"];
    Kind::new("table_head", &skips)
}

/// A table of whole sectors and what the Rust gives of it, in any slot and at any address.
pub fn case(kind: &mut Kind, rng: &mut Rng, table: &[u8], lone: &Lone) {
    let origin = TableOrigin {
        slot: rng.pick(&[1, 2, 0, 255]),
        toc_lsn: Lsn(rng.word() as u32),
        toc_sectors: (table.len() / DATA) as u16,
    };
    let longer = rng.below(4) == 0;
    let lent = if longer { &[table, b"SACDTRL2 behind the table"].concat() } else { table };
    let head = table_head(lent, origin.slot, origin.toc_lsn, origin.toc_sectors);
    let skip = match lone.rust {
        Some(_) => 0,
        None => lone.words.last().map_or(0, |word| (word >> 16) as u8),
    };
    let area = if skip == 0 { Area { origin, ..lone.area } } else { Area::default() };
    let question = ("bytes", lent.len(), "origin", origin);
    kind.record_case(&question, 0, head, TableHead { skip, area, chain: chain(table) });
    for (code, class) in [(8, "skip 8"), (9, "skip 9"), (10, "skip 10"), (11, "skip 11")] {
        kind.class_if(class, skip == code);
    }
    kind.class_if("not skipped", skip == 0);
    kind.class_if("bytes behind the table", longer && skip == 0);
}

/// The first or the last of each sub-structure that the walk meets.
fn chain(table: &[u8]) -> Chain {
    let met = plain::met(table);
    let last = |structure| plain::last_of(&met, structure).unwrap_or(0) as u32;
    Chain {
        ttxt: plain::first_of(&met, Structure::TrackText).unwrap_or(0) as u32,
        igl: last(Structure::IsrcGenre),
        trl1: last(Structure::TrackList1),
        trl2: last(Structure::TrackList2),
    }
}
