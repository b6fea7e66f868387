//! The customer's sheet for a new bay, through the command, and an image of the size of a disc.

mod common;

use common::{Ran, SECTOR, Scratch, command, ran, run, stored};
use std::process::Command;
use tables::sample;

/// Where the two copies of the first area's table begin in the sample, and the sectors of each.
const COPIES: [usize; 2] = [540, 546];
const TABLE_SECTORS: usize = 6;
/// The sectors of the sample.
const SECTORS: usize = 564;
/// Where a table has its play time, the offsets of its tracks' texts, two bytes each, and their starts
/// and durations, four bytes each.
const PLAYTIME: usize = 64;
const TEXT_OFFSETS: usize = SECTOR + 8;
const STARTS: usize = 3 * SECTOR + 8;
const DURATIONS: usize = 3 * SECTOR + 1028;

/// The lines of a run's output that begin with one of these.
fn lines<'a>(ran: &'a Ran, begins: &[&str]) -> Vec<&'a str> {
    let found = |line: &&str| begins.iter().any(|begin| line.starts_with(begin));
    ran.out.lines().filter(found).collect()
}

#[test]
fn half_a_sector_is_not_taken_for_a_whole_one() {
    for format in 0..3 {
        let image = stored(format, &sample::image(), [0; 6]);
        let (size, name) = (image.len() / SECTORS, format!("half{format}.iso"));
        let dumped = |bytes| run(&["--dump", Scratch::new(&name, &image[..bytes]).name()]);
        let master = 520 * size;
        let error = Scratch::absent(&name).refused("3: cut master");
        let refused = ran(1, "refused 3\n", &error);
        assert_eq!(dumped(master - 1), refused);
        assert_eq!(dumped(master - size / 2), refused);
        assert_eq!(lines(&dumped(master), &["refused", "areas"]), ["refused 6", "areas 0"]);
        // The first copy of the first table ends with this sector.
        let copy = (COPIES[0] + TABLE_SECTORS) * size;
        assert_eq!(lines(&dumped(copy - 1), &["areas"]), ["areas 0"]);
        assert_eq!(
            lines(&dumped(copy), &["areas", "area1.toc_lsn"]),
            ["areas 1", "area1.toc_lsn 540"]
        );
    }
    let cut = Scratch::new("cut.iso", &sample::image()[..SECTORS * SECTOR - 1]);
    assert_eq!(lines(&run(&[cut.name()]), &["Sectors"]), ["Sectors          563"]);
    assert_eq!(run(&["fingerprints", cut.name()]).out.lines().count(), 563);
}

#[test]
fn the_second_copy_is_used_where_the_first_is_dropped() {
    let mut image = sample::image();
    // The master table names a first copy that begins with the image's last sector.
    for master in [510, 520, 530] {
        image[master * SECTOR + 64..][..4].copy_from_slice(&(SECTORS as u32 - 1).to_be_bytes());
    }
    let scratch = Scratch::new("dropped.iso", &image);
    let dumped = run(&["--dump", scratch.name()]);
    assert_eq!((dumped.status, &*dumped.error), (Some(0), ""));
    let begins = ["accepted", "areas", "area1.toc_lsn", "area1.tracks", "area2.toc_lsn"];
    let found = ["accepted", "areas 2", "area1.toc_lsn 546", "area1.tracks 3", "area2.toc_lsn 552"];
    assert_eq!(lines(&dumped, &begins), found);
    assert!(dumped.out.ends_with("\nwarnings 2\n4 1 0\n14 2 2\n"));
    let listed = run(&[scratch.name()]);
    let warning = "  area 1: the first copy of its table cannot be read";
    assert_eq!(lines(&listed, &["  area 1:"]), [warning]);
    assert_eq!(lines(&listed, &["      1", "      2", "      3"]).len(), 5);
    let code = r#"{"code": 4, "name": "area-toc1-unreadable", "slot": 1, "track": 0}"#;
    assert!(run(&["--json", scratch.name()]).out.contains(code));
}

/// The sample with these bytes at places of both copies of the first area's table.
fn with_table(parts: &[(usize, &[u8])]) -> Vec<u8> {
    let mut image = sample::image();
    for copy in COPIES {
        for (at, bytes) in parts {
            image[copy * SECTOR + at..][..bytes.len()].copy_from_slice(bytes);
        }
    }
    image
}

#[test]
fn no_track_is_shown_past_the_play_time() {
    // Tracks 2 and 3 run past a play time of 5 minutes, the last one by its start too.
    let image = with_table(&[(PLAYTIME, &[5, 0, 0]), (DURATIONS + 4, &[255, 255, 255])]);
    let scratch = Scratch::new("overrun.iso", &image);
    let listed = run(&[scratch.name()]);
    let area = "\
Area 1 (two-channel): stereo, play time 05:00.00, 3 tracks
  Track     Start                    Duration                       Title              Performer                   ISRC
      1  00:02.00                    04:11.30                       Prélude à l'étang  Trio Vallémont              ZZTYK2600001
      2  04:15.30                    00:44.45 (stored 255:255.255)  Über dem Fluß      Trio Vallémont, Änne Sørby  ZZTYK2600002
      3  05:00.00 (stored 07:20.00)  00:00.00 (stored 05:05.00)     Rondo              Trio Vallémont
";
    assert!(listed.out.contains(area), "{}", listed.out);
    let past =
        |track| format!("  area 1, track {track}: ends after the area's play time; cut to it");
    assert_eq!(lines(&listed, &["  area 1,"]), [past(2), past(3)]);
    let dumped = run(&["--dump", scratch.name()]);
    let stored =
        ["area1.track2.start_frame", "area1.track2.duration_frames", "area1.track2.stored"];
    let times = [
        "area1.track2.start_frame 19155",
        "area1.track2.duration_frames 3345",
        "area1.track2.stored_start 4 15 30",
        "area1.track2.stored_duration 255 255 255",
    ];
    assert_eq!(lines(&dumped, &stored), times);
    assert!(dumped.out.ends_with("\nwarnings 3\n14 1 2\n14 1 3\n14 2 2\n"));
}

#[test]
fn stored_times_are_shown_as_the_disc_has_them() {
    let parts: [(usize, &[u8]); 3] = [
        (PLAYTIME, &[5, 0, 0]),
        (STARTS, &[0, 0, 0, 0, 4, 61, 80, 0, 4, 59, 75]),
        (DURATIONS, &[0, 61, 80, 0, 0, 0, 0, 0, 0, 0, 1]),
    ];
    let scratch = Scratch::new("as-stored.iso", &with_table(&parts));
    let listed = run(&[scratch.name()]);
    // The first is within the play time, the second cut by its start alone, the third by its duration.
    let area = "\
Area 1 (two-channel): stereo, play time 05:00.00, 3 tracks
  Track     Start                    Duration                    Title              Performer                   ISRC
      1  00:00.00                    01:02.05                    Prélude à l'étang  Trio Vallémont              ZZTYK2600001
      2  05:00.00 (stored 04:61.80)  00:00.00                    Über dem Fluß      Trio Vallémont, Änne Sørby  ZZTYK2600002
      3  05:00.00                    00:00.00 (stored 00:00.01)  Rondo              Trio Vallémont
";
    assert!(listed.out.contains(area), "{}", listed.out);
    let stored = r#""stored_start": {"minutes": 4, "seconds": 61, "frames": 80}"#;
    assert!(run(&["--json", scratch.name()]).out.contains(stored));
}

#[test]
fn a_text_not_ended_by_a_zero_byte_gives_a_warning_and_changes_no_other_line() {
    // The items of track 3, moved to the end of the table: there is no zero byte behind its performer.
    let items = b"\x02\0\0\0\x01 Rondo\0\x02 Trio Vall\xe9mont";
    let place = TABLE_SECTORS * SECTOR - items.len();
    let offset = ((place - SECTOR) as u16).to_be_bytes();
    let image = with_table(&[(TEXT_OFFSETS + 4, &offset), (place, items)]);
    let scratch = Scratch::new("unterminated.iso", &image);
    let listing = include_str!("sample.txt").replace(
        "\nWarnings\n",
        "\nWarnings\n  area 1, track 3: has a text not ended by a zero byte\n",
    );
    assert_eq!(run(&[scratch.name()]), ran(0, &listing, ""));
    let dump = include_str!("sample.dump").replace("\nwarnings 1\n", "\nwarnings 2\n19 1 3\n");
    assert_eq!(run(&["--dump", scratch.name()]), ran(0, &dump, ""));
    let warning = r#"{"code": 19, "name": "track-text-unterminated", "slot": 1, "track": 3}"#;
    let json = include_str!("sample.json")
        .replace("\"warnings\": [\n", &format!("\"warnings\": [\n    {warning},\n"));
    assert_eq!(run(&["--json", scratch.name()]), ran(0, &json, ""));
}

#[test]
fn an_image_of_a_disc_s_size_needs_no_memory_of_its_size() {
    let scratch = Scratch::sparse("large.iso", &sample::image(), 4_700_000_000);
    let mut limited = Command::new("sh");
    limited.args(["-c", "ulimit -t 1; ulimit -d 16384; exec \"$0\" \"$1\""]);
    limited.arg(command().get_program()).arg(&*scratch);
    let listed = Ran::from(limited.output().expect("sh runs"));
    let sectors = "Sectors          2294921\n";
    let expected = include_str!("sample.txt").replace("Sectors          564\n", sectors);
    assert_eq!(listed, ran(0, &expected, ""));
}
