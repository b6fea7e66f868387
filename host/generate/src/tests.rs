use crate::Rng;
use crate::header::{
    Header, Verdict, correct, damaged, double_change, is_multiple, mended, products,
    single_changes, times, verdict,
};
use crate::image::{CONTENTS, Image, any_image};
use crate::layout::{DATA, layout};
use crate::noise::{Pool, any_noise};
use crate::question::{any_byte_count, any_place, any_run, any_table};
use crate::tape::{gathered, scattered};
use crate::text::{self, any_field, any_page_length, any_string, any_text, utf8_length};

fn images(seed: u64, cases: u64) -> impl Iterator<Item = Image> {
    (0..cases).map(move |case| any_image(&mut Rng::of_case(seed, case)))
}

#[test]
fn the_same_seed_gives_the_same_images() {
    assert!(images(7, 200).eq(images(7, 200)));
    assert!(images(7, 200).ne(images(8, 200)));
}

#[test]
fn splitmix_gives_its_published_numbers() {
    let mut rng = Rng::new(1234567);
    let first = [rng.word(), rng.word(), rng.word()];
    assert_eq!(first, [6457827717110365317, 3203168211198807973, 9817491932198370423]);
}

#[test]
fn every_format_meets_every_edge() {
    let lengths: Vec<_> =
        images(1, 20_000).map(|image| (image.format, image.bytes.len())).collect();
    for format in 0..3 {
        let form = layout(format).unwrap();
        for edge in [0, form.data_at, form.data_at + DATA, form.stored] {
            for length in edge + form.stored - 1..=edge + form.stored + 1 {
                assert!(lengths.contains(&(format, length)), "format {format}, length {length}");
            }
        }
    }
}

#[test]
fn every_format_has_none_to_140_sectors_and_all_contents() {
    for format in 0..3 {
        let all: Vec<_> = images(1, 2_000).filter(|image| image.format == format).collect();
        assert!(all.iter().any(|image| image.bytes.is_empty()));
        assert!(all.iter().any(|image| image.sectors() > 128));
        assert!(all.iter().all(|image| image.sectors() <= 141));
        for contents in CONTENTS {
            let full = |image: &Image| image.contents == contents && image.sectors() > 0;
            assert!(all.iter().any(full), "{contents:?}");
        }
    }
    assert!(images(1, 500).any(|image| layout(image.format).is_none()));
}

#[test]
fn images_have_sound_blank_and_unsound_headers() {
    let mut verdicts = vec![];
    for image in images(1, 500).filter(|image| image.format == 2) {
        let sectors = image.bytes.chunks_exact(2064);
        verdicts.extend(sectors.map(|sector| verdict(sector[..6].try_into().unwrap())));
    }
    for wanted in [Verdict::Sound, Verdict::Blank, Verdict::Unsound] {
        let count = verdicts.iter().filter(|&&verdict| verdict == wanted).count();
        assert!(count > 100, "{count} {wanted:?}");
    }
}

#[test]
fn lent_buffers_stay_small() {
    for case in 0..20_000 {
        let mut rng = Rng::of_case(3, case);
        let sectors = rng.below(140);
        let run = any_run(&mut rng, sectors);
        let place = any_place(&mut rng, run);
        assert!(place.len < 1 << 21, "{run:?} {place:?}");
    }
}

#[test]
fn most_runs_are_in_the_image_and_have_room() {
    let good = (0..20_000).filter(|&case| {
        let mut rng = Rng::of_case(3, case);
        let sectors = any_image(&mut rng).sectors();
        let run = any_run(&mut rng, sectors);
        let place = any_place(&mut rng, run);
        let end = run.data_bytes().and_then(|need| place.at.checked_add(need));
        let inside = run.count > 0 && run.count.checked_add(run.lsn as usize) <= Some(sectors);
        inside && end.is_some_and(|end| end <= place.len)
    });
    assert!(good.count() > 10_000);
}

#[test]
fn numbers_are_asked_for_inside_across_and_behind_the_end() {
    let tables: Vec<_> = (0..1000).map(|case| any_table(&mut Rng::of_case(3, case))).collect();
    let left = |(table, at): &(Vec<u8>, usize)| table.len().saturating_sub(*at);
    assert!(tables.iter().any(|asked| left(asked) >= 4));
    assert!(tables.iter().any(|asked| (1..4).contains(&left(asked))));
    assert!(tables.iter().any(|(table, at)| table.len() == *at));
    assert!(tables.iter().any(|(table, at)| *at == usize::MAX && !table.is_empty()));
}

#[test]
fn byte_counts_reach_the_largest() {
    let mut rng = Rng::new(3);
    assert!((0..4000).any(|_| any_byte_count(&mut rng, 2064) > usize::MAX - 4128));
}

#[test]
fn the_powers_of_alpha_come_back_after_255() {
    assert_eq!((times(2, 0x80), times(0x80, 2)), (0x1d, 0x1d));
    let mut power = 1;
    for step in 1..=255 {
        power = times(power, 2);
        assert_eq!(power == 1, step == 255);
    }
}

#[test]
fn division_agrees_with_the_two_headers_of_the_document() {
    assert_eq!(verdict([0, 0, 0, 1, 3, 2]), Verdict::Sound);
    assert_eq!(verdict([0, 0, 0, 1, 2, 3]), Verdict::Unsound);
}

#[test]
fn products_of_the_polynomial_are_sound() {
    assert_eq!(products().count(), 4 * 255);
    assert!(products().all(|product| verdict(product) == Verdict::Sound));
    assert!(products().any(|product| product == [0, 0, 0, 1, 3, 2]));
}

#[test]
fn six_zeros_are_blank_and_no_single_change_of_them() {
    assert!(is_multiple([0; 6]));
    assert_eq!(verdict([0; 6]), Verdict::Blank);
    assert!(single_changes([0; 6]).all(|changed| verdict(changed) == Verdict::Unsound));
}

/// The value of the header's polynomial at a place.
fn value(header: Header, place: u8) -> u8 {
    header.iter().fold(0, |sum, &byte| times(sum, place) ^ byte)
}

#[test]
fn multiples_are_those_that_vanish_at_both_roots() {
    let mut rng = Rng::new(5);
    for _ in 0..2000 {
        let multiple = correct((rng.word() as u32).to_be_bytes());
        assert!(is_multiple(multiple));
        for header in [multiple, damaged(&mut rng, multiple)] {
            assert_eq!(is_multiple(header), value(header, 1) == 0 && value(header, 2) == 0);
        }
    }
}

#[test]
fn no_single_change_is_a_multiple() {
    let header = correct([0, 3, 1, 254]);
    assert_eq!(single_changes(header).count(), 6 * 255);
    assert!(single_changes(header).all(|changed| !is_multiple(changed)));
}

#[test]
fn a_single_change_is_mended_by_search() {
    for header in [[0; 6], [0, 0, 0, 1, 3, 2], correct([0, 3, 1, 254])] {
        assert_eq!(mended(header), Some(header));
        assert!(single_changes(header).all(|changed| mended(changed) == Some(header)));
    }
    assert_eq!(mended([0, 0, 0, 1, 2, 3]), None);
}

#[test]
fn a_double_change_is_mended_to_another_header_or_not_at_all() {
    let mut rng = Rng::new(5);
    let header = correct([0, 3, 1, 254]);
    let changes: Vec<_> = (0..2000).map(|_| double_change(&mut rng, header)).collect();
    let differing = |other: Header| (0..6).filter(|&at| other[at] != header[at]).count();
    assert!(changes.iter().all(|&changed| differing(changed) == 2));
    let found: Vec<_> = changes.iter().filter_map(|&changed| mended(changed)).collect();
    assert!(found.iter().all(|&found| is_multiple(found) && differing(found) == 3));
    assert!((1..200).contains(&found.len()), "{} of 2000", found.len());
}

#[test]
fn two_sectors_and_a_rest_are_gathered_and_scattered() {
    let sector = |head, data, tail| [vec![head; 12], vec![data; 2048], vec![tail; 4]].concat();
    let image = [sector(1, 2, 3), sector(4, 5, 6), vec![7; 9]].concat();
    let heads = [[1; 12], [4; 12]].concat();
    let data = [[2; 2048], [5; 2048]].concat();
    let tails = [[3; 4], [6; 4]].concat();
    let bytes = [heads, data, tails, vec![7; 9]].concat();
    assert!(gathered(&image) == bytes && scattered(&bytes) == image);
}

#[test]
fn gathering_and_scattering_undo_each_other() {
    let mut rng = Rng::new(5);
    for length in [0, 1, 2063, 2064, 2065, 4127, 4128, 4129, 9000] {
        let mut bytes = vec![0; length];
        rng.fill(&mut bytes);
        assert!(scattered(&gathered(&bytes)) == bytes, "{length}");
        assert!(gathered(&scattered(&bytes)) == bytes, "{length}");
        assert_eq!(gathered(&bytes) == bytes, length < 4128, "{length}");
    }
}

#[test]
fn strings_end_at_a_zero_after_4096_bytes_and_at_the_end() {
    let strings: Vec<_> = (0..5000).map(|case| any_string(&mut Rng::of_case(3, case))).collect();
    // The bytes before the first zero, however many, and whether there is one.
    let ends: Vec<_> = (strings.iter())
        .filter_map(|(table, place)| table.get(*place..))
        .map(|rest| {
            rest.iter().position(|&byte| byte == 0).map_or((rest.len(), false), |n| (n, true))
        })
        .collect();
    for length in [0, 1, text::MOST - 1, text::MOST, text::MOST + 1] {
        assert!(ends.contains(&(length, true)) && ends.contains(&(length, false)), "{length}");
    }
    assert!(strings.iter().any(|(table, place)| *place == table.len() + 1));
    assert!(strings.iter().any(|(table, place)| *place == usize::MAX && !table.is_empty()));
}

#[test]
fn texts_of_every_sort_have_4096_bytes() {
    let texts: Vec<_> = (0..2000).map(|case| any_text(&mut Rng::of_case(3, case))).collect();
    let long = |text: &&Vec<u8>| text.len() == text::MOST;
    assert!(texts.iter().any(Vec::is_empty) && texts.iter().any(|text| text.len() > text::MOST));
    assert!(texts.iter().filter(long).any(|text| text.iter().all(|byte| *byte >= 0x80)));
    assert!(texts.iter().filter(long).any(|text| text.iter().all(|byte| (32..128).contains(byte))));
    assert!(texts.iter().filter(long).any(|text| text.is_ascii() && text.contains(&0x1f)));
}

#[test]
fn pages_have_room_to_the_byte_or_lack_one() {
    let mut rng = Rng::new(3);
    let pages: Vec<_> = (0..1000).map(|_| any_page_length(&mut rng, 5)).collect();
    assert!((0..10).all(|length| pages.contains(&length)));
    let text: Vec<u8> = (0..=255).collect();
    let utf8: String = text.iter().map(|&byte| char::from(byte)).collect();
    assert_eq!(utf8_length(&text), utf8.len());
}

#[test]
fn every_byte_stands_in_every_place_of_a_field() {
    let fields: Vec<_> = text::single_fields().collect();
    assert_eq!(fields.len(), (1..=17).sum::<usize>() * 256 * 4);
    let mut met = vec![[[false; 256]; 17]; 18];
    for field in &fields {
        for (at, &byte) in field.iter().enumerate() {
            met[field.len()][at][usize::from(byte)] = true;
        }
    }
    assert!((1..=17).all(|length| met[length][..length].iter().all(|place| *place == [true; 256])));
    assert_eq!(text::double_fields().count(), 16 * 256);
    assert_eq!(text::single_texts(0).count(), (1..=70).sum::<usize>());
}

#[test]
fn fields_have_none_to_40_bytes() {
    let fields: Vec<_> = (0..2000).map(|case| any_field(&mut Rng::of_case(3, case))).collect();
    assert!((0..=40).all(|length| fields.iter().any(|field| field.len() == length)));
    assert!(fields.iter().any(|field| field.len() == 16 && !field.contains(&0)));
}

#[test]
fn noise_is_of_many_lengths() {
    let pool = Pool::new(3);
    let strings = || (0..3000).map(|case| any_noise(&mut Rng::of_case(3, case), &pool));
    assert!(strings().take(50).eq(strings().take(50)));
    let lengths: Vec<_> = strings().map(|string| string.len()).collect();
    for length in [0, 1, 2047, 2048, 2049, 2053, 2054, 2055, 2063, 2064, 2065, 128 * 2048] {
        assert!(lengths.contains(&length), "{length}");
    }
    let discs = lengths.iter().filter(|&&length| length >= 520 * 2048).count();
    assert!((300..1500).contains(&discs), "{discs}");
}
