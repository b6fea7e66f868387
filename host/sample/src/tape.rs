//! The images that the program `stored_images` is given, and what it prints of them by the plain
//! writing.

use crate::disc::digest;
use generate::Rng;
use generate::tape::{STORED, gathered, scattered};

/// The refusal of unequal lengths.
const UNEQUAL_LENGTHS: u8 = 20;
/// The byte that a refusal leaves.
const LEFT: [u8; 1] = [0x5a];

/// Images without a sector, of two sectors and a rest, and of exactly three, of random bytes.
pub fn images() -> [Vec<u8>; 3] {
    let mut rng = Rng::new(13);
    [STORED - 1, 2 * STORED + 701, 3 * STORED].map(|len| {
        let mut image = vec![0; len];
        rng.fill(&mut image);
        image
    })
}

/// The lines of an image: what was done, the refusal, and the digest of the buffer after it.
pub fn lines(image: &[u8]) -> String {
    let line = |done: &str, refusal: u8, bytes: &[u8]| {
        format!("{done} {refusal} {:016x}\n", digest(bytes))
    };
    [
        line("gathered", 0, &gathered(image)),
        line("scattered again", 0, image),
        line("scattered", 0, &scattered(image)),
        line("gathered again", 0, image),
        line("gathered into a byte", UNEQUAL_LENGTHS, &LEFT),
        line("scattered into a byte", UNEQUAL_LENGTHS, &LEFT),
    ]
    .concat()
}

#[test]
fn each_line_of_an_image_with_sectors_is_of_other_bytes() {
    let [none, rest, three] = images();
    assert_eq!(gathered(&none), none);
    for image in [rest, three] {
        assert_ne!(gathered(&image), image);
        assert_ne!(scattered(&image), image);
        assert_ne!(scattered(&image), gathered(&image));
    }
}
