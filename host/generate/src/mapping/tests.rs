use super::*;
use std::collections::BTreeSet;

fn lists(seed: u64, cases: u64) -> impl Iterator<Item = Vec<u32>> {
    (0..cases).map(move |case| any_list(&mut Rng::of_case(seed, case)))
}

#[test]
fn the_same_seed_gives_the_same_mappings_and_lists() {
    assert_eq!(mapping_of_case(7, 9), mapping_of_case(7, 9));
    assert_ne!(mapping_of_case(7, 9), mapping_of_case(8, 9));
    assert!(lists(7, 50).eq(lists(7, 50)));
    assert!(lists(7, 50).ne(lists(8, 50)));
}

#[test]
fn words_of_a_mapping_are_that_mapping() {
    for case in 0..48 {
        let mapping = mapping_of_case(1, case);
        assert_eq!(mapping_of(&mapping.words()), Ok(mapping));
    }
    let mapping = held(&mut Rng::new(1));
    assert_eq!(mapping_of(&mapping.words()), Ok(mapping));
}

#[test]
fn a_mapping_has_its_words_and_its_data_text() {
    let mapping = Mapping {
        singles: vec![(0x41, 0x42)],
        pairs: vec![(0x8140, 0x3000), (0xeaa5, DOUBLE)],
        doubles: vec![(0x304b, 0x309a)],
    };
    let words = [1, 0x41, 0x42, 2, 0x8140, 0x3000, 0xeaa5, 0x8000_0000, 1, 0x304b, 0x309a];
    assert_eq!(mapping.words(), words);
    let text = mapping.text(&mut Rng::new(1));
    for line in ["41\tU+0042", "8140\tU+3000", "EAA5\tU+304B U+309A"] {
        assert_eq!(text.matches(&format!("\n{line}")).count(), 1, "{text}");
    }
}

#[test]
fn pairs_go_before_the_reserved_list_and_that_before_singles() {
    let mapping = Mapping {
        singles: vec![(7, 0x41), (0x87, 0x42), (0x9f, 0x43)],
        pairs: vec![(0x8797, 7), (0x889e, DOUBLE)],
        doubles: vec![(0x1f, 0x1_0000)],
    };
    let decoded = |set, bytes| mapping.decoded(set, bytes);
    assert_eq!(decoded(3, b"\x87\x9f\x87\x97\x88\x9e"), "\u{fffd}  \u{10000}");
    assert_eq!(decoded(4, b"\x87\x9f\x87\x97\x88\x9e"), "BC  \u{10000}");
    assert_eq!(decoded(3, b"\x07\x88\x87\x97\x87"), "A\u{fffd} B");
    assert_eq!([0x86, 0x87, 0x88].map(|byte| mapping.begins_pair(byte)), [false, true, true]);
}

#[test]
fn the_edges_of_a_mapping_are_found() {
    let sound: [&[u32]; 4] = [
        &[0, 0, 0],
        &[1, 255, 0x10_ffff, 0, 0],
        &[0, 1, 65_535, 0xd7ff, 0],
        &[2, 0, DOUBLE, 1, 0xe000, 0, 1, 0, 0xffff],
    ];
    for words in sound {
        assert!(mapping_of(words).is_ok(), "{words:x?}");
    }
    let none: [(&[u32], Fault); 13] = [
        (&[], (Cause::CountMissing, List::Singles)),
        (&[0, 0], (Cause::CountMissing, List::Doubles)),
        (&[1, 0], (Cause::CountBeyond, List::Singles)),
        (&[DOUBLE, 0, 0], (Cause::CountBeyond, List::Singles)),
        (&[2, 5, 0, 5, 0, 0, 0], (Cause::KeyRepeated, List::Singles)),
        (&[0, 2, 5, 0, 4, 0, 0], (Cause::KeyFalling, List::Pairs)),
        (&[1, 256, 0, 0, 0], (Cause::KeyWide, List::Singles)),
        (&[0, 1, 65_536, 0, 0], (Cause::KeyWide, List::Pairs)),
        (&[1, 0, DOUBLE, 0, 0], (Cause::IndexBeyond, List::Singles)),
        (&[0, 1, 0, 0xd800, 0], (Cause::Surrogate, List::Pairs)),
        (&[1, 0, 0x11_0000, 0, 0], (Cause::PointAbove, List::Singles)),
        (&[0, 0, 1, 0, DOUBLE], (Cause::PointAbove, List::Doubles)),
        (&[0, 0, 0, 0], (Cause::LeftOver, List::Doubles)),
    ];
    for (words, fault) in none {
        assert_eq!(mapping_of(words), Err(BTreeSet::from([fault])), "{words:x?}");
    }
}

#[test]
fn every_cause_comes_alone_and_mappings_come_too() {
    let answers: Vec<_> = lists(3, 4000).map(|list| mapping_of(&list)).collect();
    let sound = answers.iter().filter(|answer| answer.is_ok()).count();
    assert!((200..2000).contains(&sound), "{sound}");
    let alone = answers.iter().filter_map(|answer| answer.as_ref().err());
    let alone: BTreeSet<_> = alone.filter(|faults| faults.len() == 1).flatten().collect();
    // Of the causes in each list: 3 and 3 of counts, 2 and 2 of keys, 2 too wide, 2 of indices, 3 and 3 of points, 1.
    assert_eq!(alone.len(), 21, "{alone:?}");
}

#[test]
fn strings_have_pairs_cut_at_their_end() {
    let mapping = mapping_of_case(1, 6);
    let strings = (0..200).map(|case| any_string(&mut Rng::of_case(1, case), &mapping));
    let strings: Vec<_> = strings.collect();
    assert!(strings.iter().all(|string| !string.is_empty()));
    assert!(strings.iter().any(|string| mapping.begins_pair(*string.last().unwrap_or(&0))));
}
