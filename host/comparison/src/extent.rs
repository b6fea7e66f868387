//! How many sectors an image has, and whether some are in it: lengths up to the largest.

use crate::rust::{self, Length};
use crate::tally::Kind;
use generate::Rng;
use generate::layout::{any_format, layout};
use generate::question::{Run, any_byte_count, any_run};

#[derive(Debug)]
#[allow(dead_code)] // its fields are printed
struct Question {
    format: u32,
    length: usize,
    lsn: u32,
    count: usize,
}

pub struct Extent {
    pub sector_count: Kind,
    pub contains: Kind,
}

impl Extent {
    pub fn new() -> Self {
        let counts = ["none", "some", "above 32 bits", "foreign format"];
        let runs = ["inside", "outside", "no sectors inside", "no sectors outside"];
        let sums = ["sum above 64 bits", "foreign format inside", "foreign format outside"];
        Extent {
            sector_count: Kind::new("sector_count", &counts),
            contains: Kind::new("contains", &[&runs[..], &sums[..]].concat()),
        }
    }

    /// One case with the format and length of an image, one with any.
    pub fn cases(&mut self, rng: &mut Rng, format: u32, length: usize) {
        self.case(rng, format, length);
        let format = any_format(rng);
        let stored = layout(format).map_or(2048, |layout| layout.stored);
        let length = any_byte_count(rng, stored);
        self.case(rng, format, length);
    }

    fn case(&mut self, rng: &mut Rng, format: u32, length: usize) {
        let image = rust::open(format, Length(length as u64));
        // A foreign format has no sectors.
        let sectors = image.as_ref().map_or(0, |image| image.sector_count() as usize);
        let library = scarletbook::raw::sector_count(format, length);
        let kind = &mut self.sector_count;
        kind.case(&Question { format, length, lsn: 0, count: 0 }, 0, library, sectors);
        kind.class_if("none", sectors == 0 && image.is_some());
        kind.class_if("some", sectors > 0);
        kind.class_if("above 32 bits", sectors > u32::MAX as usize);
        kind.class_if("foreign format", image.is_none());

        let run = any_run(rng, sectors);
        let rust = match &image {
            Some(image) => image.contains(u64::from(run.lsn), run.count as u64),
            None => run.lsn == 0 && run.count == 0,
        };
        self.contains_case(format, length, run, rust);
    }

    fn contains_case(&mut self, format: u32, length: usize, run: Run, rust: bool) {
        let Run { lsn, count } = run;
        let library = scarletbook::raw::contains(format, length, lsn, count);
        let foreign = layout(format).is_none();
        let kind = &mut self.contains;
        kind.case(&Question { format, length, lsn, count }, 0, library, rust);
        kind.class_if("inside", rust && !foreign && count > 0);
        kind.class_if("outside", !rust && !foreign && count > 0);
        kind.class_if("no sectors inside", rust && !foreign && count == 0);
        kind.class_if("no sectors outside", !rust && !foreign && count == 0);
        kind.class_if("sum above 64 bits", count.checked_add(lsn as usize).is_none());
        kind.class_if("foreign format inside", rust && foreign);
        kind.class_if("foreign format outside", !rust && foreign);
    }
}
