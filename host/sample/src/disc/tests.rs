use super::*;
use std::collections::BTreeSet;

/// The numbers of the lines that begin with a word.
fn numbers(lines: &str, word: &str) -> Vec<Vec<u64>> {
    let lines = lines.lines().filter_map(|line| line.strip_prefix(word));
    lines.map(|line| line.split(' ').filter_map(|word| word.parse().ok()).collect()).collect()
}

#[test]
fn stored_discs_come_back() {
    let discs = discs(&stored()).expect("a list of discs");
    for (disc, other) in all().iter().zip(&discs) {
        assert_eq!((&disc.name, &disc.disc), (&other.name, &other.disc));
    }
    assert_eq!(all().len(), discs.len());
    assert!(super::discs(&stored()[1..]).is_none());
}

#[test]
fn every_class_has_a_disc() {
    let all = all();
    let answers: Vec<_> = all.iter().map(lines).collect();
    let heads: Vec<_> = answers.iter().map(|lines| numbers(lines, "disc ").remove(0)).collect();
    let refusals: BTreeSet<_> = heads.iter().map(|head| head[0]).collect();
    assert_eq!(refusals, BTreeSet::from([0, 3, 4, 5, 6]));
    let accepted = heads.iter().filter(|head| head[0] == 0);
    let formats: BTreeSet<_> = accepted.clone().map(|head| head[2]).collect();
    assert_eq!(formats, BTreeSet::from([0, 1, 2]));
    assert!(2 * accepted.count() > all.len() && all.len() >= 50);
    let warnings = answers.iter().flat_map(|lines| numbers(lines, "warning "));
    let warnings: BTreeSet<_> = warnings.map(|numbers| (numbers[0], numbers[1])).collect();
    for code in (1..=19).filter(|&code| code != 16) {
        let slots = if [1, 2, 17].contains(&code) { 0..=0 } else { 1..=2 };
        slots.for_each(|slot| assert!(warnings.contains(&(code, slot)), "{code} {slot}"));
    }
    let refused: BTreeSet<_> =
        answers.iter().flat_map(|lines| numbers(lines, "text ")).map(|text| text[1]).collect();
    assert_eq!(refused, BTreeSet::from([0, 9]));
}

#[test]
fn stored_times_of_every_class_have_a_track() {
    let answers: Vec<_> = all().iter().map(lines).collect();
    let tracks: Vec<_> = answers.iter().flat_map(|lines| numbers(lines, "track ")).collect();
    let frames = |time: &[u64]| 75 * (60 * time[0] + time[1]) + time[2];
    let as_stored = |track: &[u64]| [frames(&track[5..8]), frames(&track[8..11])] == track[3..5];
    assert!(tracks.iter().any(|track| as_stored(track)));
    assert!(tracks.iter().any(|track| !as_stored(track)));
    for time in [5..8, 8..11] {
        assert!(tracks.iter().any(|track| track[time.clone()][1] > 59));
        assert!(tracks.iter().any(|track| track[time.clone()][2] > 74));
    }
}

/// The last of the numbers of the lines that begin with a word.
fn last<const N: usize>(answers: &[String], word: &str) -> BTreeSet<[u64; N]> {
    let numbers = answers.iter().flat_map(|lines| numbers(lines, word));
    numbers.filter_map(|numbers| numbers.last_chunk().copied()).collect()
}

#[test]
fn texts_of_every_end_are_stored() {
    let answers: Vec<_> = all().iter().map(lines).collect();
    let tracks: BTreeSet<_> = last::<14>(&answers, "track ").into_iter().flatten().collect();
    let areas: BTreeSet<_> = last::<4>(&answers, "area ").into_iter().flatten().collect();
    assert_eq!((tracks, areas), (BTreeSet::from([0, 1, 2, 3]), BTreeSet::from([0, 1, 2, 3])));
    let discs = last::<17>(&answers, "master ");
    let discs: BTreeSet<_> = discs.into_iter().flat_map(|ends| ends.into_iter().take(16)).collect();
    assert_eq!(discs, BTreeSet::from([0, 1, 3]));
    let warnings = answers.iter().map(|lines| numbers(lines, "disc ")[0][1]);
    assert_eq!(warnings.max(), Some(2047));
}
