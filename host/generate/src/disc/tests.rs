use super::*;

fn discs(seed: u64, cases: u64) -> impl Iterator<Item = Disc> {
    (0..cases).map(move |case| any_disc(&mut Rng::of_case(seed, case)))
}

#[test]
fn the_same_seed_gives_the_same_discs() {
    assert!(discs(7, 20).eq(discs(7, 20)));
    assert!(discs(7, 20).ne(discs(8, 20)));
}

#[test]
fn every_format_has_small_discs_and_large_ones() {
    for format in 0..3 {
        let sectors: Vec<_> =
            discs(1, 600).filter(|disc| disc.format == format).map(|disc| disc.sectors()).collect();
        assert!(sectors.iter().any(|&sectors| sectors < MASTER_COPIES[0]));
        assert!(sectors.iter().any(|&sectors| sectors >= BEHIND + 128));
        let small = sectors.iter().filter(|&&sectors| sectors < BEHIND + 40).count();
        assert!(2 * small > sectors.len());
    }
    assert!(discs(1, 600).any(|disc| layout(disc.format).is_none()));
}

#[test]
fn data_stand_where_the_format_says() {
    for (format, at) in [(0, 1020 * 1024), (1, 510 * 2054 + 6), (2, 510 * 2064 + 12)] {
        let mut disc = Disc::new(format, 512);
        disc.put(MASTER, &[7; 3 * DATA]);
        assert_eq!((disc.bytes[at - 1], disc.bytes[at], disc.bytes[at + DATA - 1]), (0, 7, 7));
        assert_eq!((disc.sectors(), disc.data(511)), (512, &[7; DATA][..]));
    }
}

/// Whether the master table's signature stands where it would in a format.
fn begins_in(disc: &Disc, format: u32) -> bool {
    let form = layout(format).expect("0, 1 and 2 are formats");
    let at = MASTER * form.stored + form.data_at;
    disc.bytes.get(at..at + MASTER_SIGNATURE.len()).is_some_and(|part| part == MASTER_SIGNATURE)
}

#[test]
fn every_format_has_decoys_of_every_other() {
    for (format, other) in [(0, 1), (0, 2), (1, 0), (1, 2), (2, 0), (2, 1)] {
        let signed = |disc: &Disc| disc.format == format && begins_in(disc, format);
        let (decoys, others): (Vec<_>, Vec<_>) =
            discs(1, 600).filter(signed).partition(|disc| begins_in(disc, other));
        assert!(!decoys.is_empty() && decoys.len() < others.len(), "{other} in {format}");
    }
}

#[test]
fn discs_end_with_the_signature() {
    let lengths: Vec<_> = discs(1, 3000).map(|disc| (disc.format, disc.bytes.len())).collect();
    for format in 0..3 {
        let Layout { stored, data_at } = layout(format).expect("0, 1 and 2 are formats");
        let end = MASTER * stored + data_at + MASTER_SIGNATURE.len();
        for length in [end - 1, end, end + 1] {
            assert!(lengths.contains(&(format, length)), "{length} in {format}");
        }
    }
}
