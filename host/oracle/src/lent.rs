//! Mappings for the customer's text.rs: the data texts that it has at run time in place of the files that it includes.

use std::sync::OnceLock;

/// The mounts of text.rs, each with tables of its own. The first is that of `read_toc`.
pub const MOUNTS: usize = 9;

/// The names by which text.rs includes the data of sets 3 to 6.
const NAMES: [&str; 4] = ["/set3-", "/set4-", "/set5-", "/set6-"];

static TEXTS: [[OnceLock<String>; NAMES.len()]; MOUNTS] =
    [const { [const { OnceLock::new() }; NAMES.len()] }; MOUNTS];

/// Lends a mount the data text of a mapping, for a set of 3 to 6. It must not have one, nor have decoded a text of that set.
pub fn lend(mount: usize, set: u8, text: String) {
    let place = &TEXTS[mount][usize::from(set) - 3];
    assert!(place.set(text).is_ok(), "mount {mount} has a mapping for set {set}");
}

/// What a mount includes by a path: no data if none is lent.
pub fn text(mount: usize, path: &str) -> &'static str {
    let set = NAMES.iter().position(|name| path.contains(name)).expect("the data of a set");
    TEXTS[mount][set].get_or_init(String::new)
}
