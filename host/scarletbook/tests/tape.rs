//! Gathering for a tape store, and the way back.

use scarletbook::{Refusal, gather, raw, scatter};

const STORED: usize = 2064;

/// Bytes that differ from those of the next sectors at every place.
fn image(length: usize) -> Vec<u8> {
    (0..length).map(|at| (at / STORED * 31 + at % STORED % 251) as u8).collect()
}

fn gathered(image: &[u8]) -> Vec<u8> {
    let mut out = vec![0xee; image.len()];
    assert_eq!(gather(image, &mut out), Ok(()));
    out
}

fn scattered(bytes: &[u8]) -> Vec<u8> {
    let mut out = vec![0xee; bytes.len()];
    assert_eq!(scatter(bytes, &mut out), Ok(()));
    out
}

/// Lengths at and next to the ends of sectors and of their parts.
fn lengths() -> impl Iterator<Item = usize> {
    let parts = (0..4).flat_map(|sector| [0, 12, 2060].map(|part| sector * STORED + part));
    parts.flat_map(|edge| edge.saturating_sub(1)..=edge + 1)
}

#[test]
fn heads_then_data_then_tails_then_the_rest() {
    let image = image(3 * STORED + 5);
    let [first, second, third] = [0, 1, 2].map(|sector| &image[sector * STORED..][..STORED]);
    let heads = [&first[..12], &second[..12], &third[..12]].concat();
    let data = [&first[12..2060], &second[12..2060], &third[12..2060]].concat();
    let tails = [&first[2060..], &second[2060..], &third[2060..]].concat();
    let expected = [heads, data, tails, image[3 * STORED..].to_vec()].concat();
    assert!(gathered(&image) == expected);
    assert!(scattered(&expected) == image);
}

#[test]
fn each_way_undoes_the_other() {
    for length in lengths() {
        let image = image(length);
        assert!(scattered(&gathered(&image)) == image, "{length}");
        assert!(gathered(&scattered(&image)) == image, "{length}");
    }
}

#[test]
fn a_single_sector_and_what_is_shorter_are_as_they_came() {
    for length in [0, 1, 12, 2063, 2064, 2065, 2 * STORED - 1] {
        let image = image(length);
        assert!(gathered(&image) == image && scattered(&image) == image, "{length}");
    }
    let image = image(2 * STORED);
    assert!(gathered(&image) != image && scattered(&image) != image);
}

/// The lengths beside which another is unequal.
fn others(length: usize) -> impl Iterator<Item = usize> {
    let longer = [length + 1, length + STORED];
    let shorter = [Some(0), length.checked_sub(1), length.checked_sub(STORED)];
    longer.into_iter().chain(shorter.into_iter().flatten()).filter(move |&other| other != length)
}

#[test]
fn unequal_lengths_are_refused_and_leave_the_buffer() {
    for length in lengths() {
        let image = image(length);
        for other in others(length) {
            let mut out = vec![0xee; other];
            assert_eq!(gather(&image, &mut out), Err(Refusal::UnequalLengths));
            assert_eq!(scatter(&image, &mut out), Err(Refusal::UnequalLengths));
            assert!(out.iter().all(|&byte| byte == 0xee), "{other} beside {length}");
        }
    }
}

#[test]
fn the_exported_functions_answer_numbers() {
    let image = image(2 * STORED + 1);
    let mut out = vec![0xee; image.len()];
    assert_eq!((raw::gather_sectors(&image, &mut out), &out), (0, &gathered(&image)));
    let mut back = vec![0xee; image.len()];
    assert_eq!((raw::scatter_sectors(&out, &mut back), &back), (0, &image));
    assert_eq!(raw::gather_sectors(&image, &mut back[1..]), 20);
    assert_eq!(raw::scatter_sectors(&image[1..], &mut back), 20);
    assert!(back == image);
    assert_eq!((raw::gather_sectors(&[], &mut []), raw::scatter_sectors(&[], &mut [])), (0, 0));
}
