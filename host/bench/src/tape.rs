//! Gathering for the tape store, and the way back, beside a memcpy of as many bytes.

use crate::{PLACES, room, row};
use generate::Rng;
use generate::tape::gathered;
use scarletbook::raw::{gather_sectors, scatter_sectors};
use std::hint::black_box;

/// Ten sectors, about a megabyte and 64 of them; the last two with a rest.
const BYTES: [usize; 3] = [20_640, 1_000_000, 64_000_000];
/// What all places of a line may have together.
const MEMORY: usize = 256_000_000;

/// An image and a buffer for its bytes in another order.
struct Tape {
    image: &'static [u8],
    out: &'static mut [u8],
}

/// The buffer begins half a page from where the image does.
fn tape(bytes: usize) -> Tape {
    let [image, out] = [0, 2048].map(|place| room(bytes, place));
    Rng::new(1).fill(image);
    Tape { image, out }
}

/// Library and plain gathering must give the same bytes, and the way back the image.
fn check(tape: &mut Tape) {
    let mut back = vec![0; tape.image.len()];
    assert_eq!(gather_sectors(tape.image, tape.out), 0);
    assert!(*tape.out == gathered(tape.image));
    assert_eq!(scatter_sectors(tape.out, &mut back), 0);
    assert!(back == tape.image);
}

fn gather(tape: &mut Tape) {
    black_box(gather_sectors(black_box(tape.image), black_box(&mut *tape.out)));
}

/// The image's bytes are some other's, gathered.
fn scatter(tape: &mut Tape) {
    black_box(scatter_sectors(black_box(tape.image), black_box(&mut *tape.out)));
}

fn memcpy(tape: &mut Tape) {
    black_box(&mut *tape.out).copy_from_slice(black_box(tape.image));
}

pub fn gathering() {
    for bytes in BYTES {
        let places = (MEMORY / (2 * bytes)).clamp(1, PLACES);
        let mut tapes: Vec<_> = std::iter::repeat_with(|| tape(bytes)).take(places).collect();
        check(&mut tapes[0]);
        row("gather, memcpy", bytes, 1.5).print(&mut tapes, gather, memcpy);
        row("scatter, memcpy", bytes, 1.5).print(&mut tapes, scatter, memcpy);
    }
}
