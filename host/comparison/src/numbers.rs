//! Big-endian numbers of a table, the wrapping product, and the digest of any bytes.

use crate::sectors::plain_digest;
use crate::tally::Kind;
use generate::Rng;
use generate::question::any_table;
use oracle::toc::private;

pub struct Numbers {
    pub byte: Kind,
    pub be16: Kind,
    pub be32: Kind,
    pub product: Kind,
    pub digest: Kind,
}

impl Numbers {
    pub fn new() -> Self {
        let wide = ["inside", "across the end", "behind the end", "largest place"];
        Numbers {
            byte: Kind::new("byte_at", &["inside", "behind the end", "largest place"]),
            be16: Kind::new("be16_at", &wide),
            be32: Kind::new("be32_at", &wide),
            product: Kind::new("wrapping_mul", &["fits", "wraps"]),
            digest: Kind::new("digest", &["no bytes", "one sector", "other lengths"]),
        }
    }

    pub fn cases(&mut self, rng: &mut Rng) {
        let (table, at) = any_table(rng);
        let question = ("table", &table, "at", at);
        let library = scarletbook::raw::byte_at(&table, at);
        self.byte.case(&question, 0, library, private::byte(&table, at));
        let library = scarletbook::raw::be16_at(&table, at);
        self.be16.case(&question, 0, library, private::be16(&table, at));
        let library = scarletbook::raw::be32_at(&table, at);
        self.be32.case(&question, 0, library, private::be32(&table, at));
        for (width, kind) in [(1, &mut self.byte), (2, &mut self.be16), (4, &mut self.be32)] {
            let left = table.len().saturating_sub(at);
            kind.class_if("inside", width <= left);
            kind.class_if("across the end", 0 < left && left < width);
            kind.class_if("behind the end", left == 0);
            kind.class_if("largest place", at == usize::MAX && !table.is_empty());
        }
        self.product_case(rng);
        self.digest_case(rng);
    }

    fn product_case(&mut self, rng: &mut Rng) {
        let [a, b] = [any_factor(rng), any_factor(rng)];
        let kind = &mut self.product;
        kind.case(&(a, b), 0, scarletbook::raw::wrapping_mul(a, b), a.wrapping_mul(b));
        kind.class_if("fits", a.checked_mul(b).is_some());
        kind.class_if("wraps", a.checked_mul(b).is_none());
    }

    fn digest_case(&mut self, rng: &mut Rng) {
        let length = rng.pick(&[0, 1, 2, 3, 4, 5, 7, 8, 9, 100, 2047, 2048, 2048, 2049]);
        let mut bytes = vec![0; length];
        rng.fill(&mut bytes);
        // The Rust's takes a sector; other lengths are held to the published rule.
        let rust = match <&[u8; 2048]>::try_from(&bytes[..]) {
            Ok(sector) => oracle::digest(sector),
            Err(_) => plain_digest(&bytes),
        };
        let kind = &mut self.digest;
        kind.case(&("bytes", &bytes), 0, scarletbook::raw::digest(&bytes), rust);
        kind.class_if("no bytes", length == 0);
        kind.class_if("one sector", length == 2048);
        kind.class_if("other lengths", length != 0 && length != 2048);
    }
}

/// A number of any size up to 64 bits, or the largest.
fn any_factor(rng: &mut Rng) -> u64 {
    let mut bytes = [0; 8];
    rng.fill(&mut bytes);
    let shift = rng.below(65) as u32;
    u64::from_le_bytes(bytes).checked_shr(shift).unwrap_or(u64::MAX)
}
