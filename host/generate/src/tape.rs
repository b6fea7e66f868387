//! Headers gathered for the tape store, by the document's sentence: "For a format 2 image write all
//! 12-byte heads, then all data, then all 4-byte tails, then any rest shorter than a sector as it came."

/// The bytes of a sector: 12 of its head, 2,048 of data, 4 of its tail.
pub const STORED: usize = 2064;

pub fn gathered(image: &[u8]) -> Vec<u8> {
    let sectors = image.chunks_exact(STORED);
    let rest = sectors.remainder();
    let mut bytes = Vec::with_capacity(image.len());
    for sector in sectors.clone() {
        bytes.extend(&sector[..12]);
    }
    for sector in sectors.clone() {
        bytes.extend(&sector[12..2060]);
    }
    for sector in sectors {
        bytes.extend(&sector[2060..]);
    }
    bytes.extend(rest);
    bytes
}

/// The image whose gathered bytes these are.
pub fn scattered(bytes: &[u8]) -> Vec<u8> {
    let sectors = bytes.len() / STORED;
    let (heads, bytes) = bytes.split_at(12 * sectors);
    let (data, bytes) = bytes.split_at(2048 * sectors);
    let (tails, rest) = bytes.split_at(4 * sectors);
    let mut image = Vec::new();
    for sector in 0..sectors {
        image.extend(&heads[12 * sector..][..12]);
        image.extend(&data[2048 * sector..][..2048]);
        image.extend(&tails[4 * sector..][..4]);
    }
    image.extend(rest);
    image
}
