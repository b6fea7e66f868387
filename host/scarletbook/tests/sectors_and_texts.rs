use scarletbook::raw::*;
use scarletbook::{Refusal, SectorFormat};

#[test]
fn an_empty_image_has_no_sectors() {
    for format in [SectorFormat::Plain, SectorFormat::Raw2054, SectorFormat::Raw2064] {
        assert_eq!(sector_count(format, 0), 0);
        assert!(contains(format, 0, 0, 0));
        assert!(!contains(format, 0, 0, 1));
        assert!(!contains(format, 0, 1, 0));
    }
}

#[test]
fn empty_slices_are_accepted_or_refused_by_the_rules() {
    let missing = Comparison { refusal: Refusal::NoSuchEntry.number(), equal: 0 };
    let same = Comparison { refusal: 0, equal: 1 };
    assert_eq!(read_sectors(SectorFormat::Plain, &[], 0, 0, &mut [], 0), 0);
    assert_eq!(
        read_sectors(SectorFormat::Plain, &[], 1, 0, &mut [], 0),
        Refusal::NoSuchEntry.number()
    );
    assert_eq!(
        read_sectors(SectorFormat::Plain, &[], 0, 1, &mut [], 0),
        Refusal::ShortBuffer.number()
    );
    assert_eq!(
        read_sectors(SectorFormat::Plain, &[], 0, 0, &mut [], 1),
        Refusal::ShortBuffer.number()
    );
    assert_eq!(read_sectors(3u32, &[], 0, 1, &mut [], 0), Refusal::ForeignFormat.number());
    assert_eq!(compare_sectors(SectorFormat::Raw2064, &[], 0, 0, &[]), same);
    assert_eq!(compare_sectors(SectorFormat::Raw2064, &[], 1, 0, &[]), missing);
    assert_eq!(fingerprint(SectorFormat::Raw2054, &[], 0).refusal, Refusal::NoSuchEntry.number());
    assert_eq!(audit(SectorFormat::Raw2064, &[], 0).refusal, Refusal::NoSuchEntry.number());
    assert_eq!(audit(SectorFormat::Plain, &[], 0).refusal, Refusal::NoHeader.number());
    assert_eq!(audit(3u32, &[], 0).refusal, Refusal::ForeignFormat.number());
    assert_eq!(mend(SectorFormat::Raw2064, &[], 0), not_mended(Refusal::NoSuchEntry));
    assert_eq!(mend(SectorFormat::Raw2054, &[], 0), not_mended(Refusal::NoHeader));
    assert_eq!(mend(3u32, &[], 0), not_mended(Refusal::ForeignFormat));
}

#[test]
fn numbers_past_the_end_are_zero() {
    assert_eq!((byte_at(&[], 0), be16_at(&[], 0), be32_at(&[], usize::MAX)), (0, 0, 0));
    assert_eq!(be32_at(&[1, 2, 3], 1), 0x0203_0000);
    assert_eq!(be16_at(&[1, 2, 3], usize::MAX), 0);
}

#[test]
fn digest_gives_the_published_vectors() {
    assert_eq!(digest(b""), 0xcbf2_9ce4_8422_2325);
    assert_eq!(digest(b"a"), 0xaf63_dc4c_8601_ec8c);
    assert_eq!(digest(b"foobar"), 0x8594_4171_f739_67e8);
}

/// A sector of format 2: a header before data of one byte.
fn sector(header: [u8; 6], data: u8) -> [u8; 2064] {
    let mut image = [data; 2064];
    image[..6].copy_from_slice(&header);
    image
}

fn verdict(header: [u8; 6], data: u8) -> u8 {
    let image = sector(header, data);
    let AuditAnswer { refusal, verdict } = audit(SectorFormat::Raw2064, &image, 0);
    assert_eq!(refusal, 0);
    verdict
}

#[test]
fn the_two_headers_of_the_document() {
    assert_eq!(verdict([0, 0, 0, 1, 3, 2], 0), SOUND);
    assert_eq!(verdict([0, 0, 0, 1, 2, 3], 0), UNSOUND);
}

#[test]
fn six_zeros_alone_are_blank_whatever_the_data_are() {
    assert_eq!([0, 1, 255].map(|data| verdict([0; 6], data)), [BLANK; 3]);
    for header in near([0; 6]).filter(|header| *header != [0; 6]) {
        assert_eq!(verdict(header, 0), UNSOUND, "{header:?}");
    }
}

/// The headers that differ from the given one in at most one byte, it itself six times.
fn near(header: [u8; 6]) -> impl Iterator<Item = [u8; 6]> {
    (0..6 * 256).map(move |at: usize| {
        let mut near = header;
        near[at / 256] = at as u8;
        near
    })
}

fn not_mended(refusal: Refusal) -> Mended {
    Mended { refusal: refusal.number(), header: [0; 6] }
}

#[test]
fn a_correct_header_with_one_byte_changed_comes_back_as_it_was() {
    for correct in [[0, 0, 0, 1, 3, 2], [0; 6]] {
        for header in near(correct) {
            let image = sector(header, 7);
            let expected = Mended { refusal: 0, header: correct };
            assert_eq!(mend(SectorFormat::Raw2064, &image, 0), expected, "{header:?}");
            assert_eq!(image, sector(header, 7));
        }
    }
}

#[test]
fn a_header_that_is_not_mended_is_six_zeros_by_the_first_refusal() {
    // Two bytes of 00 00 00 01 03 02 are changed.
    let image = sector([0, 0, 0, 1, 2, 3], 0);
    let beyond = not_mended(Refusal::BeyondMending);
    assert_eq!(mend(SectorFormat::Raw2064, &image, 0), beyond);
    assert_eq!(mend(SectorFormat::Raw2064, &image, 1), not_mended(Refusal::NoSuchEntry));
    assert_eq!(mend(SectorFormat::Raw2064, &image[1..], 0), not_mended(Refusal::NoSuchEntry));
    for lsn in [0, 1, u32::MAX] {
        assert_eq!(mend(SectorFormat::Plain, &image, lsn), not_mended(Refusal::NoHeader));
        assert_eq!(mend(SectorFormat::Raw2054, &image, lsn), not_mended(Refusal::NoHeader));
        assert_eq!(mend(3u32, &image, lsn), not_mended(Refusal::ForeignFormat));
    }
}

#[test]
fn a_refused_audit_has_no_verdict() {
    let image = [0; 2064];
    let refused = |refusal: Refusal| AuditAnswer { refusal: refusal.number(), verdict: 0 };
    assert_eq!(audit(3u32, &image, 0), refused(Refusal::ForeignFormat));
    assert_eq!(audit(SectorFormat::Plain, &image, 0), refused(Refusal::NoHeader));
    assert_eq!(audit(SectorFormat::Raw2054, &image, 1), refused(Refusal::NoHeader));
    assert_eq!(audit(SectorFormat::Raw2064, &image, 1), refused(Refusal::NoSuchEntry));
    assert_eq!(audit(SectorFormat::Raw2064, &image[1..], 0), refused(Refusal::NoSuchEntry));
}

#[test]
fn a_sector_is_read_and_the_rest_of_the_buffer_stays() {
    let mut image = [7; 2054 + 1];
    image[6] = 1;
    image[2053] = 2;
    let mut buf = [9; 2050];
    assert_eq!(read_sectors(SectorFormat::Raw2054, &image, 0, 1, &mut buf, 1), 0);
    assert_eq!((buf[0], buf[1], buf[2], buf[2048], buf[2049]), (9, 1, 7, 2, 9));
}

#[test]
fn a_string_ends_at_a_zero_after_4096_bytes_or_at_the_end() {
    let mut table = [b'a'; 4200];
    table[4197] = 0;
    let length = |place| string_bytes(&table, place).len();
    assert_eq!([0, 100, 101, 102, 4197].map(length), [4096, 4096, 4096, 4095, 0]);
    assert_eq!([4198, 4199, 4200, 4201, usize::MAX].map(length), [2, 1, 0, 0, 0]);
    assert_eq!([4199, 4200, usize::MAX].map(|place| string_length(&table, place)), [1, 0, 0]);
    assert_eq!(string_bytes(&table, 7).as_ptr(), &raw const table[7]);
    assert!(string_bytes(&[], 0).is_empty());
}

#[test]
fn a_string_ended_by_4096_bytes_before_a_zero_byte_or_the_end() {
    let ends = |table: &[u8]| [0, 1].map(|place| string_end(table, place));
    let mut table = [b'a'; 4098];
    // A zero byte behind 4,096 bytes, and behind one more.
    table[4096] = 0;
    assert_eq!(ends(&table), [ENDED_BY_MAX_BYTES, ENDED_BY_ZERO_BYTE]);
    table[4096..].copy_from_slice(b"a\0");
    assert_eq!(ends(&table), [ENDED_BY_MAX_BYTES; 2]);
    // The end of the table, likewise.
    assert_eq!(ends(&table[..4095]), [ENDED_BY_TABLE_END; 2]);
    assert_eq!(ends(&table[..4096]), [ENDED_BY_MAX_BYTES, ENDED_BY_TABLE_END]);
    assert_eq!(ends(&table[..4097]), [ENDED_BY_MAX_BYTES; 2]);
}

#[test]
fn how_an_empty_string_ended() {
    assert_eq!([0, 1].map(|place| string_end(b"\0\0", place)), [ENDED_BY_ZERO_BYTE; 2]);
    assert_eq!([2, 3, usize::MAX].map(|place| string_end(b"a\0", place)), [ENDED_BY_TABLE_END; 3]);
    assert_eq!([0, usize::MAX].map(|place| string_end(&[], place)), [ENDED_BY_TABLE_END; 2]);
}

#[test]
fn code_8_is_latin_1_and_11_is_set_3() {
    assert_eq!([0, 1, 2, 7, 8, 15, 255].map(charset), [0; 7]);
    assert_eq!([3, 4, 5, 6, 11, 254].map(charset), [3, 4, 5, 6, 3, 6]);
}

/// The answer of decoding without a mapping into a page of nines, and the page.
fn decoded<const N: usize>(bytes: &[u8], code: u8) -> (DecodeAnswer, [u8; N]) {
    let mut page = [9; N];
    (decode(bytes, code, &[], &mut page), page)
}

fn refused(refusal: u8) -> DecodeAnswer {
    DecodeAnswer { refusal, len: 0 }
}

#[test]
fn byte_e9_gives_c3_a9_and_the_rest_of_the_page_stays() {
    let text = |len| DecodeAnswer { refusal: 0, len };
    assert_eq!(decoded(&[0xe9], 8), (text(2), [0xc3, 0xa9, 9]));
    assert_eq!(decoded(&[0xe9], 0), (text(2), [0xc3, 0xa9]));
    assert_eq!(decoded(b"a\x1f\x7f\x80\xff", 2), (text(7), *b"a \x7f\xc2\x80\xc3\xbf\x09"));
}

#[test]
fn a_short_page_is_refused_and_stays() {
    assert_eq!(decoded(&[0xe9], 0), (refused(Refusal::ShortPage.number()), [9]));
    assert_eq!(decoded(b"abc", 0), (refused(Refusal::ShortPage.number()), [9; 2]));
    assert_eq!(decoded(b"a", 0), (refused(Refusal::ShortPage.number()), []));
}

#[test]
fn sets_3_to_6_are_refused_where_there_is_a_text_and_no_mapping() {
    for code in [3, 4, 5, 6, 11] {
        assert_eq!(decoded(b"a", code), (refused(Refusal::SetNotHeld.number()), [9; 2]));
        assert_eq!(decoded(b"a", code), (refused(Refusal::SetNotHeld.number()), []));
        assert_eq!(decoded(b"", code), (refused(0), [9; 2]));
        assert_eq!(decoded(b"", code), (refused(0), []));
    }
}

#[test]
fn fields_end_at_a_zero_and_are_trimmed_at_both_ends() {
    let field = b"\x20\x09A\x01 B\xa0\x85\0C";
    assert_eq!(fixed_bytes(field).text(), b"\x20\x09A\x01 B\xa0\x85");
    assert_eq!(fixed_text(field).text(), b"A\x01 B");
    let bytes = *b"A\x01 B\0\0\0\0\0\0\0\0\0\0\0\0";
    assert_eq!(fixed_text(field), FixedText { bytes, len: 4 });
    for field in [&b""[..], b"\0A", b" \r\x1c"] {
        assert_eq!(fixed_text(field), FixedText { bytes: [0; 16], len: 0 });
    }
    let longer = b" BCDEFGHIJKLMNO\x0dQ";
    assert_eq!(fixed_bytes(longer).text(), &longer[..16]);
    assert_eq!(fixed_text(longer).text(), &longer[1..15]);
}

#[test]
fn a_language_has_no_zeros_and_blanks_at_its_end() {
    let codes = [*b"en", *b" a", *b"e ", *b"e\0", *b"\0 ", *b"\0a"];
    let texts: [&[u8]; 6] = [b"en", b" a", b"e", b"e", b"", b"\0a"];
    assert_eq!(codes.map(|code| language(code).text().to_vec()), texts.map(<[u8]>::to_vec));
    assert_eq!(language(*b"e "), LanguageCode { bytes: *b"e\0", len: 1 });
}
