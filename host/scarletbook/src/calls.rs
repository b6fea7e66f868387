//! The exported functions of the library, over slices: each takes any slices and any numbers, and always returns. This is
//! the one module with `unsafe`.

use crate::record::*;
use std::mem::{MaybeUninit, align_of, size_of};

// An area's record as the calls that decode a track's text pass it by value, in two parts. Each has more than 16 bytes, so that
// x86-64 passes it in memory, and one stands behind the other, where the record would stand. A copy
// of more than 128 bytes at once is made by a slow instruction (docs/DECISIONS.md, request 5).
#[repr(C)]
#[derive(Clone, Copy)]
struct AreaFront(MaybeUninit<[u32; 24]>);
#[repr(C)]
#[derive(Clone, Copy)]
struct AreaBack(MaybeUninit<[u32; 12]>);

const _: () = {
    assert!(cfg!(all(target_arch = "x86_64", unix)) && size_of::<AreaFront>() % 8 == 0);
    assert!(size_of::<AreaFront>() + size_of::<AreaBack>() == size_of::<Area>());
    assert!(align_of::<AreaFront>() == align_of::<Area>());
};

#[inline]
fn in_parts(area: &Area) -> (AreaFront, AreaBack) {
    let front = (area as *const Area).cast::<AreaFront>();
    // SAFETY: the two together are as long as the record, no more aligned, and hold any bytes.
    unsafe { (*front, *front.add(1).cast()) }
}

// A slice is a pointer and then a length.
unsafe extern "C" {
    safe fn scarletbook_sector_count(format: u32, bytes: usize) -> usize;
    safe fn scarletbook_contains(format: u32, bytes: usize, lsn: u32, count: usize) -> bool;
    fn scarletbook_read_sectors(
        format: u32,
        image: *const u8,
        image_len: usize,
        lsn: u32,
        count: usize,
        buf: *mut u8,
        buf_len: usize,
        at: usize,
    ) -> u8;
    fn scarletbook_compare_sectors(
        format: u32,
        image: *const u8,
        image_len: usize,
        lsn: u32,
        count: usize,
        bytes: *const u8,
        bytes_len: usize,
    ) -> Comparison;
    safe fn scarletbook_wrapping_mul(a: u64, b: u64) -> u64;
    fn scarletbook_digest(bytes: *const u8, bytes_len: usize) -> u64;
    fn scarletbook_fingerprint(
        format: u32,
        image: *const u8,
        image_len: usize,
        lsn: u32,
    ) -> FingerprintAnswer;
    fn scarletbook_audit(format: u32, image: *const u8, image_len: usize, lsn: u32) -> AuditAnswer;
    fn scarletbook_mend(format: u32, image: *const u8, image_len: usize, lsn: u32) -> Mended;
    fn scarletbook_gather_sectors(
        image: *const u8,
        image_len: usize,
        out: *mut u8,
        out_len: usize,
    ) -> u8;
    fn scarletbook_scatter_sectors(
        bytes: *const u8,
        bytes_len: usize,
        out: *mut u8,
        out_len: usize,
    ) -> u8;
    fn scarletbook_byte_at(table: *const u8, table_len: usize, at: usize) -> u8;
    fn scarletbook_be16_at(table: *const u8, table_len: usize, at: usize) -> u16;
    fn scarletbook_be32_at(table: *const u8, table_len: usize, at: usize) -> u32;
    fn scarletbook_string_length(table: *const u8, table_len: usize, place: usize) -> usize;
    fn scarletbook_string_end(table: *const u8, table_len: usize, place: usize) -> u8;
    safe fn scarletbook_charset(code: u8) -> u8;
    fn scarletbook_decode(
        bytes: *const u8,
        bytes_len: usize,
        code: u8,
        mapping: *const u32,
        mapping_len: usize,
        page: *mut u8,
        page_len: usize,
    ) -> DecodeAnswer;
    fn scarletbook_fixed_bytes(field: *const u8, field_len: usize) -> FixedText;
    fn scarletbook_fixed_text(field: *const u8, field_len: usize) -> FixedText;
    safe fn scarletbook_language(first: u8, second: u8) -> LanguageCode;
    fn scarletbook_read_table(
        table: *const u8,
        table_len: usize,
        tracks: *mut Track,
        tracks_len: usize,
        words: *mut u32,
        words_len: usize,
    ) -> TableAnswer;
    fn scarletbook_decode_area_text(
        table: *const u8,
        table_len: usize,
        area: Area,
        item: u32,
        mapping: *const u32,
        mapping_len: usize,
        page: *mut u8,
        page_len: usize,
    ) -> DecodeAnswer;
    fn scarletbook_decode_track_text(
        table: *const u8,
        table_len: usize,
        front: AreaFront,
        back: AreaBack,
        tracks: *const Track,
        tracks_len: usize,
        number: u32,
        item: u32,
        mapping: *const u32,
        mapping_len: usize,
        page: *mut u8,
        page_len: usize,
    ) -> DecodeAnswer;
    fn scarletbook_draw_at(
        table: *const u8,
        table_len: usize,
        next: usize,
        left: usize,
    ) -> DrawAnswer;
    safe fn scarletbook_frame_number(time: Timecode) -> Frame;
    safe fn scarletbook_cap(start: Frame, duration: Frame, playtime: Frame) -> CapAnswer;
    fn scarletbook_read_disc(
        format: u32,
        image: *const u8,
        image_len: usize,
        work: *mut u8,
        work_len: usize,
        tracks: *mut Track,
        tracks_len: usize,
        words: *mut u32,
        words_len: usize,
    ) -> DiscAnswer;
    fn scarletbook_decode_disc_text(
        work: *const u8,
        work_len: usize,
        master: MasterToc,
        item: u32,
        mapping: *const u32,
        mapping_len: usize,
        page: *mut u8,
        page_len: usize,
    ) -> DecodeAnswer;
    fn scarletbook_decode_disc_area_text(
        work: *const u8,
        work_len: usize,
        area: Area,
        item: u32,
        mapping: *const u32,
        mapping_len: usize,
        page: *mut u8,
        page_len: usize,
    ) -> DecodeAnswer;
    fn scarletbook_decode_disc_track_text(
        work: *const u8,
        work_len: usize,
        front: AreaFront,
        back: AreaBack,
        tracks: *const Track,
        tracks_len: usize,
        number: u32,
        item: u32,
        mapping: *const u32,
        mapping_len: usize,
        page: *mut u8,
        page_len: usize,
    ) -> DecodeAnswer;
    fn scarletbook_detect_format(image: *const u8, image_len: usize) -> DetectAnswer;
    fn scarletbook_table_head(
        table: *const u8,
        table_len: usize,
        slot: u8,
        lsn: Lsn,
        sectors: u16,
    ) -> TableHead;
}

/// The whole sectors of an image of so many bytes; 0 for a foreign format.
pub fn sector_count(format: impl Into<u32>, bytes: usize) -> usize {
    scarletbook_sector_count(format.into(), bytes)
}

/// Whether the `count` sectors from `lsn` on are all in an image of so many bytes.
pub fn contains(format: impl Into<u32>, bytes: usize, lsn: u32, count: usize) -> bool {
    scarletbook_contains(format.into(), bytes, lsn, count)
}

/// Copies the 2,048 data bytes of each of the `count` sectors from `lsn` on into `buf`, from
/// `at` on, and returns 0. Refused, in this order and with `buf` left as it was: 1 for a
/// foreign format, 2 when they do not fit into `buf`, 8 when they are not all in the image.
pub fn read_sectors(
    format: impl Into<u32>,
    image: &[u8],
    lsn: u32,
    count: usize,
    buf: &mut [u8],
    at: usize,
) -> u8 {
    let format = format.into();
    // SAFETY: both pointers and lengths are those of slices; `buf` overlaps nothing.
    unsafe {
        scarletbook_read_sectors(
            format,
            image.as_ptr(),
            image.len(),
            lsn,
            count,
            buf.as_mut_ptr(),
            buf.len(),
            at,
        )
    }
}

/// Whether the data of the `count` sectors from `lsn` on is what `bytes` begins with. Refused,
/// in this order: 1 for a foreign format, 2 when `bytes` are fewer than that data, 8 when the
/// sectors are not all in the image.
pub fn compare_sectors(
    format: impl Into<u32>,
    image: &[u8],
    lsn: u32,
    count: usize,
    bytes: &[u8],
) -> Comparison {
    let format = format.into();
    // SAFETY: both pointers and lengths are those of slices.
    unsafe {
        scarletbook_compare_sectors(
            format,
            image.as_ptr(),
            image.len(),
            lsn,
            count,
            bytes.as_ptr(),
            bytes.len(),
        )
    }
}

/// The low 64 bits of a product.
#[inline]
pub fn wrapping_mul(a: u64, b: u64) -> u64 {
    scarletbook_wrapping_mul(a, b)
}

/// FNV-1a, 64 bits, of the bytes.
#[inline]
pub fn digest(bytes: &[u8]) -> u64 {
    // SAFETY: the pointer and length are those of a slice.
    unsafe { scarletbook_digest(bytes.as_ptr(), bytes.len()) }
}

/// FNV-1a, 64 bits, of the data of sector `lsn`. Refused, in this order: 1 for a foreign
/// format, 8 when the sector is not in the image.
pub fn fingerprint(format: impl Into<u32>, image: &[u8], lsn: u32) -> FingerprintAnswer {
    // SAFETY: the pointer and length are those of a slice.
    unsafe { scarletbook_fingerprint(format.into(), image.as_ptr(), image.len(), lsn) }
}

/// Whether the header of sector `lsn` is sound (ECMA-267), blank or unsound. Refused, in this
/// order: 1 for a foreign format, 11 for format 0 or 1, 8 when the sector is not in the image.
pub fn audit(format: impl Into<u32>, image: &[u8], lsn: u32) -> AuditAnswer {
    // SAFETY: the pointer and length are those of a slice.
    unsafe { scarletbook_audit(format.into(), image.as_ptr(), image.len(), lsn) }
}

/// The correct header, blank ones included, that differs from the header of sector `lsn` in at most
/// one place. It is the nearest correct one, and no proof of what was written. Refused, in this order:
/// 1 for a foreign format, 11 for format 0 or 1, 8 when the sector is not in the image, 14 when there
/// is no such header.
pub fn mend(format: impl Into<u32>, image: &[u8], lsn: u32) -> Mended {
    // SAFETY: the pointer and length are those of a slice.
    unsafe { scarletbook_mend(format.into(), image.as_ptr(), image.len(), lsn) }
}

/// Gathers an image of format 2: writes into `out` the heads of its whole sectors (12 bytes each),
/// then their data (2,048), then their tails (4), then the rest as it came, and returns 0. Refused,
/// with `out` left as it was: 20 when it is not as long as the image.
pub fn gather_sectors(image: &[u8], out: &mut [u8]) -> u8 {
    // SAFETY: both pointers and lengths are those of slices; `out` overlaps nothing.
    unsafe { scarletbook_gather_sectors(image.as_ptr(), image.len(), out.as_mut_ptr(), out.len()) }
}

/// The way back: writes into `out` the image whose gathered bytes these are, and returns 0. Refused,
/// with `out` left as it was: 20 when it is not as long as the bytes.
pub fn scatter_sectors(bytes: &[u8], out: &mut [u8]) -> u8 {
    // SAFETY: both pointers and lengths are those of slices; `out` overlaps nothing.
    unsafe { scarletbook_scatter_sectors(bytes.as_ptr(), bytes.len(), out.as_mut_ptr(), out.len()) }
}

/// The byte at `at`; 0 past the end.
#[inline]
pub fn byte_at(table: &[u8], at: usize) -> u8 {
    // SAFETY: the pointer and length are those of a slice.
    unsafe { scarletbook_byte_at(table.as_ptr(), table.len(), at) }
}

/// The big-endian number of two bytes at `at`; each byte past the end reads as 0.
#[inline]
pub fn be16_at(table: &[u8], at: usize) -> u16 {
    // SAFETY: the pointer and length are those of a slice.
    unsafe { scarletbook_be16_at(table.as_ptr(), table.len(), at) }
}

/// The big-endian number of four bytes at `at`; each byte past the end reads as 0.
#[inline]
pub fn be32_at(table: &[u8], at: usize) -> u32 {
    // SAFETY: the pointer and length are those of a slice.
    unsafe { scarletbook_be32_at(table.as_ptr(), table.len(), at) }
}

/// How many bytes the string at `place` has: it ends before the first zero byte, after 4,096
/// bytes or at the table's end. 0 at the table's end and past it.
#[inline]
pub fn string_length(table: &[u8], place: usize) -> usize {
    // SAFETY: the pointer and length are those of a slice.
    unsafe { scarletbook_string_length(table.as_ptr(), table.len(), place) }
}

/// How the string at `place` ended: [`ENDED_BY_MAX_BYTES`] if it has 4,096 bytes, whatever stands
/// behind them, else [`ENDED_BY_ZERO_BYTE`] or [`ENDED_BY_TABLE_END`]. The latter at the table's end
/// and past it too.
#[inline]
pub fn string_end(table: &[u8], place: usize) -> u8 {
    // SAFETY: the pointer and length are those of a slice.
    unsafe { scarletbook_string_end(table.as_ptr(), table.len(), place) }
}

/// The string at `place`, as a part of the table.
#[inline]
pub fn string_bytes(table: &[u8], place: usize) -> &[u8] {
    let rest = table.get(place..).unwrap_or_default();
    &rest[..string_length(table, place)]
}

/// The set that a code names: 3 to 6, or 0 for Latin-1.
#[inline]
pub fn charset(code: u8) -> u8 {
    scarletbook_charset(code)
}

/// Decodes a string's bytes, of the set that `code` names, to UTF-8 at the start of `page`; code
/// points below 32 become a blank. No bytes give length 0 in every set. Sets 3 to 6 are decoded by the
/// mapping whose words are lent (see [`Mappings`](crate::Mappings)), all of which is checked in each
/// call; Latin-1 without a look at it. Refused, in this order and with `page` left as it was: 9 for
/// bytes of set 3 to 6 without a word of a mapping, 12 for bytes of these sets with words that are no
/// mapping, 10 when the text is longer than `page`.
#[inline]
pub fn decode(bytes: &[u8], code: u8, mapping: &[u32], page: &mut [u8]) -> DecodeAnswer {
    // SAFETY: pointers and lengths are those of slices; `page` overlaps nothing.
    unsafe {
        scarletbook_decode(
            bytes.as_ptr(),
            bytes.len(),
            code,
            mapping.as_ptr(),
            mapping.len(),
            page.as_mut_ptr(),
            page.len(),
        )
    }
}

/// The bytes of a field up to the first zero byte. Of a field longer than 16 bytes the first 16
/// count.
#[inline]
pub fn fixed_bytes(field: &[u8]) -> FixedText {
    // SAFETY: the pointer and length are those of a slice.
    unsafe { scarletbook_fixed_bytes(field.as_ptr(), field.len()) }
}

/// The same, without the white space at both ends: hexadecimal 09-0D, 1C-20, 85, A0.
#[inline]
pub fn fixed_text(field: &[u8]) -> FixedText {
    // SAFETY: the pointer and length are those of a slice.
    unsafe { scarletbook_fixed_text(field.as_ptr(), field.len()) }
}

/// The language that two characters name: without the zeros and blanks at their end.
#[inline]
pub fn language(code: [u8; 2]) -> LanguageCode {
    let [first, second] = code;
    scarletbook_language(first, second)
}

/// Reads a lone table, as slot 1 with address 0: its area's record, its tracks at the start of
/// `tracks`, its warnings at the start of `words`. Refused, in this order: 7 for a table of 0
/// bytes, over 262,144 or no multiple of 2,048; 2 for fewer than 255 tracks or 1,021 words; 6
/// when it yields no area. Only 6 changes anything: it has its warning.
#[inline]
pub fn read_table(table: &[u8], tracks: &mut [Track], words: &mut [u32]) -> TableAnswer {
    // SAFETY: pointers and lengths are those of slices; the two that are written overlap nothing.
    unsafe {
        scarletbook_read_table(
            table.as_ptr(),
            table.len(),
            tracks.as_mut_ptr(),
            tracks.len(),
            words.as_mut_ptr(),
            words.len(),
        )
    }
}

/// Decodes the text of an area, by its item from 0, from its lone table, to the start of `page`.
/// Nothing in the record is trusted. Refused, in this order and with `page` left as it was: 2 for
/// a table shorter than the record's sectors (above 128 as 128), 8 for no area or no such item, 9, 12
/// and 10 as by [`decode`]. An absent text has length 0.
#[inline]
pub fn decode_area_text(
    table: &[u8],
    area: &Area,
    item: u32,
    mapping: &[u32],
    page: &mut [u8],
) -> DecodeAnswer {
    // SAFETY: pointers and lengths are those of slices; `page` overlaps nothing.
    unsafe {
        scarletbook_decode_area_text(
            table.as_ptr(),
            table.len(),
            *area,
            item,
            mapping.as_ptr(),
            mapping.len(),
            page.as_mut_ptr(),
            page.len(),
        )
    }
}

/// The same for the text of a track, by its number from 1. Fewer than 255 tracks are refused by 2
/// too; a track 0, or above the record's count (above 255 as 255), by 8.
#[inline]
pub fn decode_track_text(
    table: &[u8],
    area: &Area,
    tracks: &[Track],
    number: u32,
    item: u32,
    mapping: &[u32],
    page: &mut [u8],
) -> DecodeAnswer {
    let (front, back) = in_parts(area);
    // SAFETY: pointers and lengths are those of slices; `page` overlaps nothing.
    unsafe {
        scarletbook_decode_track_text(
            table.as_ptr(),
            table.len(),
            front,
            back,
            tracks.as_ptr(),
            tracks.len(),
            number,
            item,
            mapping.as_ptr(),
            mapping.len(),
            page.as_mut_ptr(),
            page.len(),
        )
    }
}

/// Draws the item at `next` of a table, of so many that are `left`, empty and unknown ones
/// included. Without one, `next` and `left` are as they were. How an item's string ended is what
/// [`string_end`] says of its place.
#[inline]
pub fn draw_at(table: &[u8], next: usize, left: usize) -> DrawAnswer {
    // SAFETY: the pointer and length are those of a slice.
    unsafe { scarletbook_draw_at(table.as_ptr(), table.len(), next, left) }
}

/// The frame number of a timecode.
#[inline]
pub fn frame_number(time: Timecode) -> Frame {
    scarletbook_frame_number(time)
}

/// A track's start and duration: as they are if they end within the play time, else capped.
#[inline]
pub fn cap(start: Frame, duration: Frame, playtime: Frame) -> CapAnswer {
    scarletbook_cap(start, duration, playtime)
}

/// Reads a disc image: its master record and its areas. The master table and each chosen table
/// copy fill the start of their [`REGIONS`] of `work`, the tracks of each area the records from its
/// slot's first on ([`FIRST_TRACKS`]), the warnings the start of `words`. Refused, in this order: 1
/// for a foreign format; 2 for fewer than 544,768 bytes, 510 tracks or 2,047 words; 3 for fewer
/// than 520 whole sectors; 4 without `SACDMTOC` at LSN 510; 5 for a major version above 1; 6 when
/// neither slot yields an area. Only 6 changes anything: it has the master record, the warnings and
/// the table copies.
pub fn read_disc(
    format: impl Into<u32>,
    image: &[u8],
    work: &mut [u8],
    tracks: &mut [Track],
    words: &mut [u32],
) -> DiscAnswer {
    // SAFETY: pointers and lengths are those of slices; the three that are written overlap nothing.
    unsafe {
        scarletbook_read_disc(
            format.into(),
            image.as_ptr(),
            image.len(),
            work.as_mut_ptr(),
            work.len(),
            tracks.as_mut_ptr(),
            tracks.len(),
            words.as_mut_ptr(),
            words.len(),
        )
    }
}

/// Decodes the text of a disc, by its item from 0, from the work bytes of a read, to the start of
/// `page`. Nothing in the record is trusted. Refused, in this order and with `page` left as it was:
/// 2 for fewer than 544,768 work bytes, 8 for no such item, 9, 12 and 10 as by [`decode`]. An
/// absent text has length 0.
#[inline]
pub fn decode_disc_text(
    work: &[u8],
    master: &MasterToc,
    item: u32,
    mapping: &[u32],
    page: &mut [u8],
) -> DecodeAnswer {
    // SAFETY: pointers and lengths are those of slices; `page` overlaps nothing.
    unsafe {
        scarletbook_decode_disc_text(
            work.as_ptr(),
            work.len(),
            *master,
            item,
            mapping.as_ptr(),
            mapping.len(),
            page.as_mut_ptr(),
            page.len(),
        )
    }
}

/// The same for the text of an area, whose slot names its region; 8 also for no area or a slot
/// other than 1 and 2.
#[inline]
pub fn decode_disc_area_text(
    work: &[u8],
    area: &Area,
    item: u32,
    mapping: &[u32],
    page: &mut [u8],
) -> DecodeAnswer {
    // SAFETY: pointers and lengths are those of slices; `page` overlaps nothing.
    unsafe {
        scarletbook_decode_disc_area_text(
            work.as_ptr(),
            work.len(),
            *area,
            item,
            mapping.as_ptr(),
            mapping.len(),
            page.as_mut_ptr(),
            page.len(),
        )
    }
}

/// The same for the text of a track, by its number from 1. Fewer than 510 tracks are refused by 2
/// too; a track 0, or above the record's count (above 255 as 255), by 8.
#[inline]
pub fn decode_disc_track_text(
    work: &[u8],
    area: &Area,
    tracks: &[Track],
    number: u32,
    item: u32,
    mapping: &[u32],
    page: &mut [u8],
) -> DecodeAnswer {
    let (front, back) = in_parts(area);
    // SAFETY: pointers and lengths are those of slices; `page` overlaps nothing.
    unsafe {
        scarletbook_decode_disc_track_text(
            work.as_ptr(),
            work.len(),
            front,
            back,
            tracks.as_ptr(),
            tracks.len(),
            number,
            item,
            mapping.as_ptr(),
            mapping.len(),
            page.as_mut_ptr(),
            page.len(),
        )
    }
}

/// The format in which LSN 510 begins `SACDMTOC`: the first of 0, 2 and 1. Refused by 4 if there is none.
pub fn detect_format(image: &[u8]) -> DetectAnswer {
    // SAFETY: the pointer and length are those of a slice.
    unsafe { scarletbook_detect_format(image.as_ptr(), image.len()) }
}

/// The head of a table of so many sectors (above 128 as 128) at the start of `table`: its area's record, with this slot,
/// address and sector count, and where its sub-structures begin.
pub fn table_head(table: &[u8], slot: u8, lsn: Lsn, sectors: u16) -> TableHead {
    // SAFETY: the pointer and length are those of a slice.
    unsafe { scarletbook_table_head(table.as_ptr(), table.len(), slot, lsn, sectors) }
}
