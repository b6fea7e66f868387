//! Texts of sets 3 to 6, by the mappings of files: what is shown, which lines are taken, and what is refused.

mod common;

use common::{Ran, SECTOR, Scratch, ran, run};
use scarletbook::raw::decode;
use scarletbook::{Disc, Mappings, Refusal};
use tables::json::json;
use tables::listing::listing;
use tables::mapping::{BadLine, check, words};
use tables::reading::{Reading, read};
use tables::sample;

const LISTING: &str = include_str!("sample.txt");
const DUMP: &str = include_str!("sample.dump");
const JSON: &str = include_str!("sample.json");

/// Where the sample has its master tables and the tables of its two areas, and their charsets.
const MASTERS: [usize; 3] = [510, 520, 530];
const AREAS: [[usize; 2]; 2] = [[540, 546], [552, 558]];
const MASTER_CHARSET: usize = 138;
const AREA_CHARSET: usize = 90;
/// Where an area's table has the title of its first track.
const TITLE: usize = SECTOR + 70;

/// The sample, its own texts and those of its two areas of other sets.
fn image(master: u8, areas: [u8; 2]) -> Vec<u8> {
    let mut image = sample::image();
    for lsn in MASTERS {
        image[lsn * SECTOR + MASTER_CHARSET] = master;
    }
    for (copies, set) in AREAS.into_iter().zip(areas) {
        for lsn in copies {
            image[lsn * SECTOR + AREA_CHARSET] = set;
        }
    }
    image
}

/// A mapping by which every byte from 32 on is that of Latin-1.
fn latin1() -> String {
    (32..=255).map(|byte| format!("{byte:02X}\tU+{byte:04X}\n")).collect()
}

/// A text that says code 1 of each locale and of each record, with another code.
fn with_code(text: &str, code: u8) -> String {
    let (locale, charset) = (r#""charset": 1"#, "656e 656e 1\n");
    text.replace(locale, &format!(r#""charset": {code}"#))
        .replace(charset, &format!("656e 656e {code}\n"))
        .replace("text_charset 1\n", &format!("text_charset {code}\n"))
        .replace(r#""text_charset": 1,"#, &format!(r#""text_charset": {code},"#))
}

#[test]
fn with_a_mapping_all_texts_are_shown() {
    let file = Scratch::new("latin1.txt", latin1().as_bytes());
    for code in [3, 4, 5, 6, 11] {
        let set = code & 7;
        let scratch = Scratch::new(&format!("all{code}.iso"), &image(code, [code; 2]));
        let mapping = format!("{set}={}", file.name());
        let shown = |form: &[&str]| run(&[form, &["--mapping", &mapping, scratch.name()]].concat());
        assert_eq!(shown(&[]), ran(0, LISTING, ""));
        assert_eq!(shown(&["--dump"]), ran(0, &with_code(DUMP, code), ""));
        assert_eq!(shown(&["--json"]), ran(0, &with_code(JSON, code), ""));
    }
}

/// The lines of a text with something in them.
fn lines<'a>(ran: &'a Ran, part: &str) -> Vec<&'a str> {
    ran.out.lines().filter(|line| line.contains(part)).collect()
}

#[test]
fn without_a_mapping_of_their_set_texts_are_as_before() {
    let file = Scratch::new("other.txt", latin1().as_bytes());
    let scratch = Scratch::new("before.iso", &image(1, [3, 1]));
    let mapping = format!("--mapping=4={}", file.name());
    for form in ["--format=0", "--dump", "--json"] {
        assert_eq!(run(&[form, &mapping, scratch.name()]), run(&[form, scratch.name()]));
    }
    let listed = run(&[scratch.name()]);
    assert_eq!((listed.status, lines(&listed, "(set 3, not held)").len()), (Some(0), 3));
    let titles = ["area1.track1.text.title present"];
    assert_eq!(lines(&run(&["--dump", scratch.name()]), "area1.track1.text.title "), titles);
    let json = run(&["--json", scratch.name()]);
    assert_eq!(lines(&json, r#""title": {"set": 3},"#).len(), 3);
}

#[test]
fn a_mapping_that_no_text_needs_changes_nothing() {
    let scratch = Scratch::new("unneeded.iso", &sample::image());
    let file = Scratch::new("unneeded.txt", b"8140\tU+3000\n");
    let mappings = [3, 4, 5, 6].map(|set| format!("--mapping={set}={}", file.name()));
    let mut arguments: Vec<_> = mappings.iter().map(String::as_str).collect();
    arguments.push(scratch.name());
    assert_eq!(run(&arguments), ran(0, LISTING, ""));
    let empty = Scratch::new("no-lines.txt", b"");
    let mapping = format!("3={}", empty.name());
    assert_eq!(run(&["--mapping", &mapping, scratch.name()]), ran(0, LISTING, ""));
}

#[test]
fn each_set_has_its_own_mapping() {
    let mut image = image(6, [3, 4]);
    for (copies, title) in
        AREAS.into_iter().zip([b"\x82\xf5\x8f\x91\x87\x9f!\0", b"\xb0\xa1\x82\xf5\0\0\0\0"])
    {
        for lsn in copies {
            image[lsn * SECTOR + TITLE..][..title.len()].copy_from_slice(title);
        }
    }
    let scratch = Scratch::new("sets.iso", &image);
    let file = |name, text: &str| Scratch::new(name, text.as_bytes());
    let shift_jis = "# unsorted\r\n8F91\tU+66F8 <CJK>\r\n\r\n82f5\tU+304b U+309A # two\r\n";
    let files = [
        (3, file("sjis.txt", &format!("{shift_jis}{}", latin1()))),
        (4, file("euc-kr.txt", &format!("B0A1\tU+AC00\n{}", latin1()))),
        (6, file("big5.txt", &latin1())),
    ];
    let mappings = files.each_ref().map(|(set, file)| format!("--mapping={set}={}", file.name()));
    let [first, second, third] = mappings.each_ref().map(String::as_str);
    let listed = run(&[first, scratch.name(), second, third]);
    assert_eq!((listed.status, &*listed.error), (Some(0), ""));
    assert!(listed.out.contains("Album            Nocturnes d'été\n"), "{}", listed.out);
    assert!(listed.out.contains("  か\u{309a}書\u{fffd}!  "), "{}", listed.out);
    assert!(listed.out.contains("  가\u{fffd}õ  "), "{}", listed.out);
    let dumped = run(&["--dump", third, second, first, scratch.name()]);
    let title = ["area1.track1.text.title e3818be3829ae69bb8efbfbd21"];
    assert_eq!(lines(&dumped, "area1.track1.text.title "), title);
    let json = run(&["--json", first, scratch.name()]);
    assert_eq!(lines(&json, "\"title\": \"か\u{309a}書\u{fffd}!\"").len(), 1);
    assert_eq!(lines(&json, r#""album_title": {"set": 6},"#).len(), 1);
}

#[test]
fn a_silent_disc_is_shown_by_mappings_too() {
    let mut image = image(5, [1, 1]);
    // Neither slot is used.
    for lsn in MASTERS {
        image[lsn * SECTOR + 84..][..4].fill(0);
    }
    let scratch = Scratch::new("silent-set.iso", &image);
    let file = Scratch::new("silent-set.txt", latin1().as_bytes());
    let listed = run(&["--mapping", &format!("5={}", file.name()), scratch.name()]);
    assert_eq!((listed.status, &listed.error), (Some(1), &scratch.refused("6: silent disc")));
    assert_eq!(lines(&listed, "Album  "), ["Album            Nocturnes d'été"]);
}

/// A run over the sample with a mapping of this text.
fn run_with(name: &str, text: &[u8]) -> (Scratch, Ran) {
    let (file, image) =
        (Scratch::new(name, text), Scratch::new(&format!("{name}.iso"), &sample::image()));
    let ran = run(&["--mapping", &format!("3={}", file.name()), image.name()]);
    (file, ran)
}

#[test]
fn words_that_are_no_mapping_are_refused_before_the_image_is_read() {
    let texts: [&[u8]; 7] = [
        b"8140\tU+3000\n61\tU+61\n8140\tU+3000\n",
        b"61\tU+61\n61\tU+62\n",
        b"61\tU+D800\n",
        b"8140\tU+304B U+DFFF\n",
        b"61\tU+110000\n",
        b"61\tU+80000000\n8140\tU+304B U+309A\n",
        b"61\tU+FFFFFFFFFFFFFFFF41\n",
    ];
    for (i, text) in texts.into_iter().enumerate() {
        let (file, refused) = run_with(&format!("bad{i}.txt"), text);
        assert_eq!(refused, ran(1, "", &file.refused("12: bad mapping")));
        let absent = run(&["--dump", "--mapping", &format!("6={}", file.name()), "absent.iso"]);
        assert_eq!(absent, ran(1, "", &file.refused("12: bad mapping")));
    }
}

const NO_ENTRY: &str = "two or four hexadecimal digits, a tab and one or two code points U+..";

#[test]
fn a_line_that_is_no_entry_is_named() {
    let (file, wrong) = run_with("line.txt", b"# Shift JIS\r\n61\tU+61\r\n\r\n8140 U+3000\r\n");
    let line = format!("tables: {}: line 4 is not {NO_ENTRY}\n", file.name());
    assert_eq!(wrong, ran(2, "", &line));
    let absent = Scratch::absent("no-mapping.txt");
    let image = Scratch::new("no-mapping.iso", &sample::image());
    let missing = run(&["--mapping", &format!("3={}", absent.name()), image.name()]);
    let line = format!("tables: {}: No such file or directory (os error 2)\n", absent.name());
    assert_eq!(missing, ran(2, "", &line));
    let endless = run(&["--mapping=3=/dev/zero", image.name()]);
    assert_eq!(endless, ran(2, "", "tables: /dev/zero: too long for a mapping\n"));
    let folder = env!("CARGO_TARGET_TMPDIR");
    let line = format!("tables: {folder}: Is a directory (os error 21)\n");
    assert_eq!(run(&["--mapping", &format!("3={folder}"), image.name()]), ran(2, "", &line));
}

#[test]
fn lines_that_are_entries() {
    let one = Ok(vec![1, 0x5c, 0xa5, 0, 0]);
    let lines: [&[u8]; 12] = [
        b"5C\tU+A5",
        b"5c\tU+a5\n",
        b"5C\tU+00A5\r\n",
        b"5C\tU+0000000000A5",
        b"5C\tU+00A5 YEN SIGN",
        b"5C\tYEN SIGN  U+00A5 ",
        b"5C\t<yen>\xa5 U+00A5",
        b"5C\tU+A5 \tu+41 +U+42 U-43",
        b"\n\n#\n# 5D\tU+5D\n#x\xff\n5C\tU+A5\n\r\n",
        b"5C\tU+A5 \r",
        b"5C\tU+A5\n\n",
        b"5C\tU+A5 \xe5\x86\x86",
    ];
    for line in lines {
        assert_eq!(words(line), one, "{}", line.escape_ascii());
    }
    assert_eq!(words(b""), Ok(vec![0, 0, 0]));
    assert_eq!(words(b"# no entries\n"), Ok(vec![0, 0, 0]));
}

#[test]
fn lines_that_are_no_entries() {
    let lines: [&[u8]; 24] = [
        b" ",
        b"\t",
        b" # comment",
        b"5C",
        b"5C U+A5",
        b"5C\t",
        b"5C\tYEN SIGN",
        b"\tU+A5",
        b"C\tU+A5",
        b"5CC\tU+A5",
        b"5CCCC\tU+A5",
        b"0x5C\tU+A5",
        b"+C\tU+A5",
        b"5G\tU+A5",
        b"5C \tU+A5",
        b" 5C\tU+A5",
        b"5C\tU+",
        b"5C\tU++A5",
        b"5C\tU+A5\tYEN SIGN",
        b"5C\tU+A5\r\r",
        b"5C\tU+A5,",
        b"5C\tU+A5 U+41 U+42",
        b"5C\tU+A5 U+4G",
        b"\xef\xbb\xbf5C\tU+A5",
    ];
    for line in lines {
        assert_eq!(words(line), Err(BadLine(1)), "{}", line.escape_ascii());
        let second = [b"8140\tU+3000\n", line, b"\nx\n"].concat();
        assert_eq!(words(&second), Err(BadLine(2)), "{}", line.escape_ascii());
    }
}

#[test]
fn lines_are_sorted_and_nothing_of_them_is_lost() {
    let text = b"FFFF\tU+10FFFF U+1\nFF\tU+304B U+309A\n0000\tU+0\n00\tU+41\n0000\tU+42\n";
    let expected = [
        &[2, 0, 0x41, 0xff, 0x8000_0000][..],
        &[3, 0, 0, 0, 0x42, 0xffff, 0x8000_0001],
        &[2, 0x304b, 0x309a, 0x10_ffff, 1],
    ];
    assert_eq!(words(text), Ok(expected.concat()));
    // No number is taken for the place of a double.
    for point in ["U+80000000", "U+FFFFFFFF", "U+7FFFFFFF", "U+123456789"] {
        let text = format!("61\t{point}\n62\tU+304B U+309A\n");
        let words = words(text.as_bytes()).expect("two entries");
        assert_eq!(words[..3], [2, 0x61, 0x7fff_ffff]);
        assert_eq!(check(3, &words), Err(Refusal::BadMapping));
    }
}

#[test]
fn every_byte_and_every_pair_of_bytes() {
    let singles = (0..=255).rev().map(|byte| format!("{byte:02x}\tU+{:X}\n", 0x4e00 + byte));
    let pairs = (0..=0xffffu32).rev().map(|pair| format!("{pair:04X}\tU+{:X}\n", 0x1_0000 + pair));
    let words = words(singles.chain(pairs).collect::<String>().as_bytes()).expect("entries");
    assert_eq!(words.len(), 3 + 2 * 256 + 2 * 65_536);
    assert_eq!(check(4, &words), Ok(()));
    let mut page = [0; 8];
    assert_eq!(decode(b"\xff\xfe\0", 4, &words, &mut page).len, 7);
    assert_eq!(&page[..7], "\u{1fffe}\u{4e00}".as_bytes());
}

/// What is shown of texts by words that are no mapping, which the command would have refused.
#[test]
fn texts_that_a_bad_mapping_leaves_are_not_said_to_be_not_held() {
    let (image, bad) = (image(3, [1, 1]), [0]);
    let mappings = Mappings::new().with(3, &bad).expect("set 3");
    let disc = read(0, &image, mappings);
    let reading = Reading::new(0, &image, &disc);
    assert!(listing(reading).contains("Album            (set 3, bad mapping)\n"));
    assert!(json(reading).contains(r#""album_title": {"set": 3},"#));
    assert!(tables::dump::dump_reading(reading).contains("master.text.album_title present\n"));
    let own = Disc::read(0u32, &image).expect("accepted");
    assert!(own.with_mappings(mappings).texts().all(|(_, text)| text == Err(Refusal::BadMapping)));
}
