//! The format that is found of an image.

use crate::rust::format_number;
use crate::tally::Kind;
use generate::disc::Disc;
use oracle::disc::detected;
use scarletbook::raw::{DetectAnswer, detect_format};

pub struct Formats {
    pub kind: Kind,
}

impl Formats {
    pub fn new() -> Self {
        let formats = ["format 0", "format 1", "format 2", "refusal 4", "another than given"];
        Formats { kind: Kind::new("detect_format", &formats) }
    }

    pub fn case(&mut self, case: u64, disc: &Disc, image: &[u8]) {
        let found = detected(&disc.bytes).map(format_number);
        let expected = match found {
            Some(sector_format) => DetectAnswer { refusal: 0, sector_format },
            None => DetectAnswer { refusal: 4, sector_format: 0 },
        };
        let question = ("case", case, "bytes", image.len());
        self.kind.record_case(&question, expected.refusal, detect_format(image), expected);
        for (format, class) in [(0, "format 0"), (1, "format 1"), (2, "format 2")] {
            self.kind.class_if(class, found == Some(format));
        }
        self.kind.class_if("another than given", found.is_some_and(|found| found != disc.format));
    }
}
