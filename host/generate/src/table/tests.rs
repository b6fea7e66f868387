use super::*;
use std::collections::HashSet;

fn tables(seed: u64, cases: u64) -> impl Iterator<Item = Vec<u8>> {
    (0..cases).map(move |case| any_table(&mut Rng::of_case(seed, case)))
}

#[test]
fn the_same_seed_gives_the_same_tables() {
    assert!(tables(7, 50).eq(tables(7, 50)));
    assert!(tables(7, 50).ne(tables(8, 50)));
}

#[test]
fn there_are_326_orders() {
    let orders: HashSet<_> = orders().into_iter().collect();
    assert_eq!(orders.len(), 326);
    let planned: HashSet<_> = plans().into_iter().map(|plan| plan.order).collect();
    assert!(orders.is_subset(&planned));
}

#[test]
fn tables_have_whole_sectors_up_to_128() {
    let sectors: Vec<_> = tables(3, 2000).map(|table| table.len()).collect();
    assert!(sectors.iter().all(|bytes| bytes.is_multiple_of(DATA) && *bytes <= 128 * DATA));
    assert!(sectors.contains(&(128 * DATA)));
    for plan in plans() {
        assert!((1..=128).contains(&plan.sectors), "{plan:?}");
    }
}

#[test]
fn signatures_stand_where_the_plan_says() {
    let plan = Plan::new(&[Structure::IsrcGenre, Structure::TrackList2], 1, 2);
    let table = table(&mut Rng::new(1), &plan);
    assert_eq!((plan.sectors, table.len()), (5, 5 * DATA));
    assert!(table[DATA..].starts_with(b"SACD_IGL") && table[3 * DATA..].starts_with(b"SACDTRL2"));
}

#[test]
fn track_counts_meet_their_edges() {
    let mut rng = Rng::new(3);
    let counts: HashSet<_> = (0..1000).map(|_| any_plan(&mut rng).tracks).collect();
    assert!([0, 1, 2, 254, 255].iter().all(|count| counts.contains(count)));
}
