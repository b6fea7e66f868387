//! Tables and images as their runs of nonzero bytes.

/// So many zeros in a row end a run: a run takes 8 bytes more than it has.
const GAP: usize = 9;

/// Each run as its place and length, four bytes each, and its bytes; then the table's length, and
/// 0 for the length of a run.
pub fn runs(table: &[u8]) -> Vec<u8> {
    let mut runs = vec![];
    let mut at = 0;
    while let Some(begin) = next(table, at, |byte| byte != 0) {
        let end = end_of_run(table, begin);
        runs.extend(head(begin, end - begin));
        runs.extend(&table[begin..end]);
        at = end;
    }
    runs.extend(head(table.len(), 0));
    runs
}

fn head(place: usize, count: usize) -> [u8; 8] {
    ((place as u64) << 32 | count as u64).to_be_bytes()
}

/// The place of the next byte that passes, from a place on.
fn next(table: &[u8], from: usize, passes: fn(u8) -> bool) -> Option<usize> {
    table[from..].iter().position(|&byte| passes(byte)).map(|n| from + n)
}

/// Where the zeros begin that end a run.
fn end_of_run(table: &[u8], begin: usize) -> usize {
    let mut zero = next(table, begin, |byte| byte == 0).unwrap_or(table.len());
    while let Some(more) = next(table, zero, |byte| byte != 0)
        && more - zero < GAP
    {
        zero = next(table, more, |byte| byte == 0).unwrap_or(table.len());
    }
    zero
}

/// The table whose runs these bytes begin with, and what stands behind them; nothing for other
/// bytes.
pub fn table(stored: &[u8]) -> Option<(Vec<u8>, &[u8])> {
    let mut table = vec![];
    let mut rest = stored;
    loop {
        let (head, more) = rest.split_first_chunk()?;
        let head = u64::from_be_bytes(*head);
        let (place, count) = ((head >> 32) as usize, head as u32 as usize);
        let (run, more) = more.split_at_checked(count)?;
        if place < table.len() {
            return None;
        }
        table.resize(place, 0);
        if count == 0 {
            return Some((table, more));
        }
        table.extend(run);
        rest = more;
    }
}

/// The tables whose runs these are, one after the other; nothing for other bytes.
pub fn tables(stored: &[u8]) -> Option<Vec<Vec<u8>>> {
    let mut tables = vec![];
    let mut rest = stored;
    while !rest.is_empty() {
        let (table, more) = table(rest)?;
        tables.push(table);
        rest = more;
    }
    Some(tables)
}

#[test]
fn runs_give_the_tables_back() {
    let mut rng = generate::Rng::new(3);
    let many: Vec<_> = (0..50).map(|_| generate::table::any_table(&mut rng)).collect();
    let stored: Vec<_> = many.iter().flat_map(|table| runs(table)).collect();
    assert_eq!(tables(&stored), Some(many));
    assert_eq!(tables(&stored[1..]), None);
    assert_eq!(runs(&[]), [0; 8]);
    assert_eq!(runs(&[0, 5]), [0, 0, 0, 1, 0, 0, 0, 1, 5, 0, 0, 0, 2, 0, 0, 0, 0]);
}
