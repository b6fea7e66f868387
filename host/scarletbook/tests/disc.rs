use scarletbook::Refusal;
use scarletbook::raw::*;

const SECTOR: usize = 2048;
const MASTER: usize = 510;
/// Where the table of the example stands.
const TABLE: usize = 540;

/// Puts bytes at a place of a sector of a plain image.
fn put(image: &mut [u8], lsn: usize, at: usize, bytes: &[u8]) {
    image[lsn * SECTOR + at..][..bytes.len()].copy_from_slice(bytes);
}

/// A plain image of 543 sectors: a master table with a text, and the table of the document's
/// example with one, which the pointers of both slots may name.
fn image(pointers: &[(usize, &[u8])]) -> Vec<u8> {
    let mut image = vec![0; (TABLE + 3) * SECTOR];
    for (at, bytes) in [(0, &b"SACDMTOC"[..]), (8, &[1, 20]), (24, b" A1\0"), (80, &[128])] {
        put(&mut image, MASTER, at, bytes);
    }
    put(&mut image, MASTER + 1, 0, b"SACDText");
    put(&mut image, MASTER + 1, 16 + 2 * 8, &[4, 0]);
    put(&mut image, MASTER + 1, 1024, b"Disc \xe9");
    put(&mut image, MASTER + 9, 0, b"SACD_Man");
    for (at, bytes) in pointers {
        put(&mut image, MASTER, *at, bytes);
    }
    let table: [(usize, &[u8]); 11] = [
        (0, b"TWOCHTOC"),
        (20, &[4]),
        (64, &[1]),
        (69, &[1]),
        (72, &[0, 0, 3, 232, 0, 0, 7, 208]),
        (144, &[7, 0]),
        (1792, b"Area"),
        (2048, b"SACDTRL1"),
        (2056, &[0, 0, 3, 232]),
        (4096, b"SACDTRL2"),
        (5124, &[1, 0, 0]),
    ];
    for (at, bytes) in table {
        put(&mut image, TABLE, at, bytes);
    }
    image
}

/// The second slot alone, its first copy past the end: 3 sectors at LSN 541, and at LSN 540.
const SECOND_COPY: [(usize, &[u8]); 2] = [(72, &[0, 0, 2, 29, 0, 0, 2, 28]), (86, &[0, 3])];

struct Lent {
    work: Vec<u8>,
    tracks: Vec<Track>,
    words: Vec<u32>,
}

fn lent() -> Lent {
    let tracks = vec![Track::default(); TRACK_RECORDS];
    Lent { work: vec![9; WORK_BYTES], tracks, words: vec![9; WARNING_WORDS] }
}

fn read(format: u32, image: &[u8], lent: &mut Lent) -> DiscAnswer {
    read_disc(format, image, &mut lent.work, &mut lent.tracks, &mut lent.words)
}

#[test]
fn the_second_copy_of_the_second_slot() {
    let (image, mut lent) = (image(&SECOND_COPY), lent());
    let answer = read(0, &image, &mut lent);
    // The copies at 520 and 530 are zeros, the first of the slot's is past the end.
    assert_eq!((answer.refusal, answer.warnings, answer.sectors), (0, 2, 543));
    assert_eq!(lent.words[..3], [17 * 65_536, 4 * 65_536 + 512, 9]);
    assert_eq!(answer.two_channel, Area::default());
    let origin = answer.multichannel.origin;
    assert_eq!((origin.slot, origin.toc_lsn, origin.toc_sectors), (2, Lsn(540), 3));
    let (track, minute) = (lent.tracks[255], Timecode { minutes: 1, seconds: 0, frames: 0 });
    assert_eq!((track.start_lsn, track.times.stored_duration), (Lsn(1000), minute));
    let (begin, bytes) = (REGIONS[1], 3 * SECTOR);
    assert_eq!(lent.work[begin..begin + bytes], image[TABLE * SECTOR..]);
    assert!(
        lent.work[..begin].iter().chain(&lent.work[begin + bytes..REGIONS[2]]).all(|&b| b == 9)
    );
    assert_eq!(lent.work[REGIONS[2]..], image[MASTER * SECTOR..520 * SECTOR]);
}

#[test]
fn the_master_record() {
    let master = read(0, &image(&SECOND_COPY), &mut lent()).master;
    assert_eq!((master.version.major, master.version.minor, master.disc_flags), (1, 20, 128));
    assert_eq!(master.album_catalog_number.text(), b"A1");
    assert_eq!(master.album_catalog_number_stored.text(), b" A1");
    let pointer = AreaPointer { toc1_lsn: Lsn(541), toc2_lsn: Lsn(540), toc_sectors: 3 };
    assert_eq!((master.two_channel, master.multichannel), (AreaPointer::default(), pointer));
    let text = TextPlace { place: 1024, end: ENDED_BY_ZERO_BYTE };
    assert_eq!(
        (master.text[8], master.text[0], master.manufacturer),
        (text, TextPlace::default(), 1)
    );
}

#[test]
fn a_text_of_the_disc_ends_with_sector_1_and_gives_no_warning() {
    let mut image = image(&SECOND_COPY);
    let mut text = |bytes: &[u8]| {
        put(&mut image, MASTER + 1, SECTOR - 4, bytes);
        put(&mut image, MASTER + 1, 16, &(SECTOR as u16 - 4).to_be_bytes());
        let answer = read(0, &image, &mut lent());
        (answer.master.text[0].place as usize, answer.master.text[0].end, answer.warnings)
    };
    assert_eq!(text(b"End\0"), (SECTOR - 4, ENDED_BY_ZERO_BYTE, 2));
    // It goes on in sector 2.
    assert_eq!(text(b"Goes on\0"), (SECTOR - 4, ENDED_BY_TABLE_END, 2));
    assert_eq!(text(b"\0End"), (0, 0, 2));
}

#[test]
fn texts_are_decoded_by_their_places() {
    let (image, mut lent) = (image(&SECOND_COPY), lent());
    let answer = read(0, &image, &mut lent);
    let mut page = [0; 8];
    assert_eq!(decode_disc_text(&lent.work, &answer.master, 8, &[], &mut page).len, 7);
    assert_eq!(&page, b"Disc \xc3\xa9\0");
    assert_eq!(decode_disc_text(&lent.work, &answer.master, 0, &[], &mut page).len, 0);
    let no_item = decode_disc_text(&lent.work, &answer.master, 16, &[], &mut page);
    assert_eq!(no_item.refusal, Refusal::NoSuchEntry.number());
    assert_eq!(decode_disc_area_text(&lent.work, &answer.multichannel, 0, &[], &mut page).len, 4);
    assert_eq!(&page[..4], b"Area");
    let no_area = decode_disc_area_text(&lent.work, &answer.two_channel, 0, &[], &mut page);
    assert_eq!(no_area.refusal, Refusal::NoSuchEntry.number());
    for (number, item, refused) in [(1, 0, 0), (0, 0, 8), (2, 0, 8), (1, 14, 8)] {
        let Lent { work, tracks, .. } = &lent;
        let answer = decode_disc_track_text(
            work,
            &answer.multichannel,
            tracks,
            number,
            item,
            &[],
            &mut page,
        );
        assert_eq!((answer.refusal, answer.len), (refused, 0));
    }
}

#[test]
fn short_lent_memory_is_refused() {
    let (image, mut lent) = (image(&SECOND_COPY), lent());
    let Lent { work, tracks, words } = &mut lent;
    let short = DiscAnswer { refusal: Refusal::ShortBuffer.number(), ..DiscAnswer::default() };
    assert_eq!(read_disc(0u32, &image, &mut work[1..], tracks, words), short);
    assert_eq!(read_disc(0u32, &image, work, &mut tracks[1..], words), short);
    assert_eq!(read_disc(0u32, &image, work, tracks, &mut words[1..]), short);
    assert!(work.iter().all(|&byte| byte == 9) && words.iter().all(|&word| word == 9));
    let answer = read_disc(0u32, &image, work, tracks, words);
    let area = answer.multichannel;
    let short = DecodeAnswer { refusal: Refusal::ShortBuffer.number(), len: 0 };
    assert_eq!(decode_disc_text(&work[1..], &answer.master, 16, &[], &mut []), short);
    assert_eq!(decode_disc_area_text(&work[1..], &area, 4, &[], &mut []), short);
    assert_eq!(decode_disc_track_text(&work[1..], &area, tracks, 0, 0, &[], &mut []), short);
    assert_eq!(decode_disc_track_text(work, &area, &tracks[1..], 0, 0, &[], &mut []), short);
}

#[test]
fn refusals_in_their_order() {
    let good = image(&SECOND_COPY);
    let mut lent = lent();
    let mut refusal = |format, image: &[u8]| read(format, image, &mut lent).refusal;
    assert_eq!(refusal(3, &[]), Refusal::ForeignFormat.number());
    assert_eq!(refusal(0, &good[..520 * SECTOR - 1]), Refusal::CutMaster.number());
    assert_eq!(refusal(1, &good), Refusal::NotScarletBook.number());
    assert_eq!(refusal(0, &image(&[(8, &[2])])), Refusal::NewerEdition.number());
    assert_eq!(refusal(0, &image(&[(8, &[2]), (0, b"X")])), Refusal::NotScarletBook.number());
    assert_eq!(refusal(0, &good[..520 * SECTOR]), Refusal::NoArea.number());
}

#[test]
fn a_disc_without_an_area_has_its_master_record_and_warnings() {
    let (image, mut lent) = (image(&[(64, &[0, 0, 2, 28]), (84, &[0, 129])]), lent());
    let answer = read(0, &image, &mut lent);
    let master = answer.master;
    let silent = DiscAnswer {
        refusal: Refusal::NoArea.number(),
        warnings: 2,
        master,
        ..DiscAnswer::default()
    };
    assert_eq!((answer, master.two_channel.toc_sectors), (silent, 129));
    assert_eq!(lent.words[..3], [17 * 65_536, 3 * 65_536 + 256, 9]);
    assert_eq!(lent.work[REGIONS[2]..REGIONS[2] + 8], *b"SACDMTOC");
}
