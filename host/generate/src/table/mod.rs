//! Area tables: sub-structures in every order, fixed fields, tracks and their texts, at every edge.

mod edges;
mod head;
mod lists;
mod plan;
mod texts;

pub use edges::{ending, endings, most_warnings};
pub(crate) use head::any_locale;
pub use plan::{MOST_SECTORS, Plan, Structure, any_plan, orders, plans};
pub(crate) use texts::any_string;

use crate::Rng;
use crate::layout::DATA;

/// The table of a plan, filled at random.
pub fn table(rng: &mut Rng, plan: &Plan) -> Vec<u8> {
    let mut table = vec![0; plan.sectors * DATA];
    let range = head::fill(rng, &mut table, plan);
    let end = plan.structures().map(|(structure, at)| at + structure.sectors() * DATA).max();
    for (structure, at) in plan.structures() {
        put(&mut table, at, structure.signature(rng));
        lists::fill(rng, &mut table, (structure, at), &range);
    }
    let long = texts::fill(rng, &mut table, plan, end.unwrap_or(DATA));
    head::place_texts(rng, &mut table, long);
    head::damage(rng, &mut table);
    table
}

/// A table of a plan that is made at random too.
pub fn any_table(rng: &mut Rng) -> Vec<u8> {
    let plan = any_plan(rng);
    table(rng, &plan)
}

/// Puts bytes at a place; what stands behind the table's end is left out.
pub fn put(table: &mut [u8], at: usize, bytes: &[u8]) {
    for (byte, &new) in table.iter_mut().skip(at).zip(bytes) {
        *byte = new;
    }
}

/// The same for numbers of two and four bytes.
pub fn put16(table: &mut [u8], at: usize, number: u16) {
    put(table, at, &number.to_be_bytes());
}

pub fn put32(table: &mut [u8], at: usize, number: u32) {
    put(table, at, &number.to_be_bytes());
}

#[cfg(test)]
mod tests;
