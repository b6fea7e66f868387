//! text.rs mounted again and again, so that a process has many mappings: each mount parses those that are lent to it.

use crate::lent::MOUNTS;
use crate::text;

/// Mounts text.rs, with what it includes taken from what is lent to this mount.
macro_rules! mount {
    ($name:ident, $number:literal) => {
        macro_rules! include_str {
            ($path:literal) => {
                crate::lent::text($number, $path)
            };
        }
        #[path = "../rust/src/text.rs"]
        #[allow(dead_code, clippy::all)]
        mod $name;
    };
}

mount!(text1, 1);
mount!(text2, 2);
mount!(text3, 3);
mount!(text4, 4);
mount!(text5, 5);
mount!(text6, 6);
mount!(text7, 7);
mount!(text8, 8);

type Decode = fn(&[u8], u8) -> Option<String>;

/// `decode_string` of a mount, in the set that a code names.
pub fn decode_string(mount: usize, bytes: &[u8], code: u8) -> Option<String> {
    DECODE[mount](bytes, code)
}

macro_rules! decode {
    ($name:ident) => {
        |bytes, code| $name::decode_string(bytes, $name::Charset::from_code(code))
    };
}

const DECODE: [Decode; MOUNTS] = [
    decode!(text),
    decode!(text1),
    decode!(text2),
    decode!(text3),
    decode!(text4),
    decode!(text5),
    decode!(text6),
    decode!(text7),
    decode!(text8),
];
