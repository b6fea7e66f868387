/*
 * Calls every function of scarletbook.h: once for an answer that is known, and once with no memory at all
 * (NULL and 0). Prints the checks that failed, then how many there were.
 */
#include "scarletbook.h"

#include <stdio.h>
#include <string.h>

static unsigned checks, faults;

static void check(int holds, const char *what, int line)
{
    checks++;
    if (!holds) {
        printf("line %d: %s\n", line, what);
        faults++;
    }
}

#define CHECK(what) check((what) != 0, #what, __LINE__)

#define MASTER 510
#define TABLE 540
#define SECTORS 543

static uint8_t image[SECTORS * SCARLETBOOK_SECTOR_SIZE];
static uint8_t work[SCARLETBOOK_WORK_BYTES];
static scarletbook_track tracks[SCARLETBOOK_TRACK_RECORDS];
static uint32_t words[SCARLETBOOK_WARNING_WORDS];
static uint8_t page[SCARLETBOOK_PAGE_BYTES];

static void put(uint8_t *at, const char *bytes, size_t count)
{
    memcpy(at, bytes, count);
}

/* The document's example of a table, 3 sectors, with a text of the area. */
static void make_table(uint8_t *table)
{
    put(table, "TWOCHTOC", 8);
    table[20] = 4;
    table[64] = 1;
    table[69] = 1;
    put(table + 72, "\0\0\3\350\0\0\7\320", 8);
    put(table + 144, "\7\0", 2);
    put(table + 1792, "Area", 4);
    put(table + 2048, "SACDTRL1\0\0\3\350", 12);
    put(table + 3076, "\0\0\1\364", 4);
    put(table + 4096, "SACDTRL2", 8);
    put(table + 5124, "\1\0\1", 3);
}

/* A plain image with a text of the disc; slot 2 has the table, its second copy past the end. */
static void make_image(void)
{
    uint8_t *master = image + MASTER * SCARLETBOOK_SECTOR_SIZE;
    put(master, "SACDMTOC\1\24", 10);
    put(master + 72, "\0\0\2\34\0\0\2\35", 8);
    put(master + 86, "\0\3", 2);
    put(master + 2048, "SACDText", 8);
    put(master + 2048 + 16 + 2 * SCARLETBOOK_DISC_TITLE, "\4\0", 2);
    put(master + 2048 + 1024, "Disc \351", 6);
    make_table(image + TABLE * SCARLETBOOK_SECTOR_SIZE);
}

/* The start of the example's track and its duration, which is a frame past the play time. */
static const scarletbook_timecode at_zero = {0, 0, 0}, past = {1, 0, 1};

static int same_time(scarletbook_timecode a, scarletbook_timecode b)
{
    return a.minutes == b.minutes && a.seconds == b.seconds && a.frames == b.frames;
}

/* Whether a record has a text's place, and how it ended; both 0 for an absent text. */
static int is_text(scarletbook_text_place text, uint32_t place, uint8_t end)
{
    return text.place == place && text.end == end;
}

static void discs(void)
{
    make_image();
    scarletbook_detect_answer format = scarletbook_detect_format(image, sizeof image);
    CHECK(format.refusal == 0 && format.sector_format == SCARLETBOOK_PLAIN);
    scarletbook_disc_answer disc =
        scarletbook_read_disc(SCARLETBOOK_PLAIN, image, sizeof image, work, sizeof work, tracks,
                              SCARLETBOOK_TRACK_RECORDS, words, SCARLETBOOK_WARNING_WORDS);
    CHECK(disc.refusal == 0 && disc.warnings == 4 && disc.sector_format == 0 && disc.sectors == SECTORS);
    CHECK(disc.two_channel.present == 0 && disc.multichannel.present == 1);
    CHECK(disc.multichannel.origin.slot == 2 && disc.multichannel.origin.toc_lsn == TABLE);
    CHECK(scarletbook_warning_code(words[0]) == SCARLETBOOK_MASTER_TOC_COPIES_DIFFER);
    CHECK(scarletbook_warning_code(words[2]) == SCARLETBOOK_AREA_TOC2_UNREADABLE);
    CHECK(scarletbook_warning_code(words[3]) == SCARLETBOOK_TRACK_PAST_PLAYTIME);
    CHECK(scarletbook_warning_slot(words[3]) == 2 && scarletbook_warning_track(words[3]) == 1);
    CHECK(tracks[SCARLETBOOK_MULTICHANNEL_FIRST].start_lsn == 1000);
    CHECK(same_time(tracks[SCARLETBOOK_MULTICHANNEL_FIRST].times.stored_duration, past));
    CHECK(memcmp(work + SCARLETBOOK_MULTICHANNEL_REGION, "TWOCHTOC", 8) == 0);
    CHECK(memcmp(work + SCARLETBOOK_MASTER_REGION, "SACDMTOC", 8) == 0);
    scarletbook_decode_answer text =
        scarletbook_decode_disc_text(work, sizeof work, disc.master, SCARLETBOOK_DISC_TITLE, NULL, 0, page,
                                     sizeof page);
    CHECK(text.refusal == 0 && text.len == 7 && memcmp(page, "Disc \303\251", 7) == 0);
    CHECK(is_text(disc.master.text[SCARLETBOOK_DISC_TITLE], 1024, SCARLETBOOK_ENDED_BY_ZERO_BYTE));
    CHECK(is_text(disc.master.text[SCARLETBOOK_ALBUM_TITLE], 0, 0));
    CHECK(is_text(disc.multichannel.text[SCARLETBOOK_AREA_DESCRIPTION], 1792, SCARLETBOOK_ENDED_BY_ZERO_BYTE));
    text = scarletbook_decode_disc_area_text(work, sizeof work, disc.multichannel, SCARLETBOOK_AREA_DESCRIPTION,
                                             NULL, 0, page, sizeof page);
    CHECK(text.refusal == 0 && text.len == 4 && memcmp(page, "Area", 4) == 0);
    tracks[SCARLETBOOK_MULTICHANNEL_FIRST].text[SCARLETBOOK_TRACK_MESSAGE].place = 1793;
    text = scarletbook_decode_disc_track_text(work, sizeof work, disc.multichannel, tracks,
                                              SCARLETBOOK_TRACK_RECORDS, 1, SCARLETBOOK_TRACK_MESSAGE, NULL, 0,
                                              page, sizeof page);
    CHECK(text.refusal == 0 && text.len == 3 && memcmp(page, "rea", 3) == 0);
}

static void lone_tables(void)
{
    const uint8_t *table = image + TABLE * SCARLETBOOK_SECTOR_SIZE;
    const size_t size = 3 * SCARLETBOOK_SECTOR_SIZE;
    scarletbook_table_answer read =
        scarletbook_read_table(table, size, tracks, SCARLETBOOK_MAX_TRACKS, words, SCARLETBOOK_TABLE_WORDS);
    CHECK(read.refusal == 0 && read.warnings == 1 && read.area.track_count == 1);
    CHECK(words[0] == 14u * 65536u + 256u + 1u && tracks[0].times.duration_frames == 4500);
    CHECK(same_time(tracks[0].times.stored_start, at_zero) && same_time(tracks[0].times.stored_duration, past));
    CHECK(tracks[0].start_lsn == 1000 && tracks[0].length_sectors == 500);
    scarletbook_decode_answer text =
        scarletbook_decode_area_text(table, size, read.area, SCARLETBOOK_AREA_DESCRIPTION, NULL, 0, page,
                                     sizeof page);
    CHECK(text.refusal == 0 && text.len == 4);
    tracks[0].text[SCARLETBOOK_TRACK_MESSAGE].place = 1794;
    text = scarletbook_decode_track_text(table, size, read.area, tracks, SCARLETBOOK_MAX_TRACKS, 1,
                                         SCARLETBOOK_TRACK_MESSAGE, NULL, 0, page, sizeof page);
    CHECK(text.refusal == 0 && text.len == 2 && memcmp(page, "ea", 2) == 0);
    scarletbook_table_head_record head = scarletbook_table_head(table, size, 2, 77, 3);
    CHECK(head.skip == 0 && head.area.origin.slot == 2 && head.area.origin.toc_lsn == 77);
    CHECK(head.area.origin.toc_sectors == 3 && head.chain.trl1 == 2048 && head.chain.trl2 == 4096);
    CHECK(head.chain.ttxt == 0 && head.chain.igl == 0);
    static const uint8_t items[] = "\1\0One\0\2\0Two";
    scarletbook_draw_answer item = scarletbook_draw_at(items, sizeof items - 1, 0, 5);
    CHECK(item.found == 1 && item.kind == 1 && item.place == 2 && item.len == 3);
    CHECK(item.next == 6 && item.left == 4);
    CHECK(scarletbook_string_end(items, sizeof items - 1, item.place) == SCARLETBOOK_ENDED_BY_ZERO_BYTE);
    item = scarletbook_draw_at(items, sizeof items - 1, item.next, item.left);
    CHECK(item.kind == 2 && item.place == 8);
    CHECK(scarletbook_string_end(items, sizeof items - 1, item.place) == SCARLETBOOK_ENDED_BY_TABLE_END);
}

/* Timecodes of tracks as stored, and what they are capped to in the example's play time of a minute. */
static const struct {
    scarletbook_timecode start, duration;
    uint32_t start_frame, duration_frames;
} times[] = {
    {{0, 0, 200}, {0, 57, 25}, 200, 4300},
    {{0, 58, 75}, {0, 0, 76}, 4425, 75},
    {{0, 61, 0}, {0, 0, 0}, 4500, 0},
    {{255, 255, 255}, {255, 255, 255}, 4500, 0},
};

static void times_of_tracks(void)
{
    static uint8_t table[3 * SCARLETBOOK_SECTOR_SIZE];
    size_t i;
    make_table(table);
    table[69] = 4;
    for (i = 0; i < 4; i++) {
        memcpy(table + 4104 + 4 * i, &times[i].start, 3);
        memcpy(table + 5124 + 4 * i, &times[i].duration, 3);
    }
    CHECK(scarletbook_read_table(table, sizeof table, tracks, SCARLETBOOK_MAX_TRACKS, words,
                                 SCARLETBOOK_TABLE_WORDS).refusal == 0);
    for (i = 0; i < 4; i++) {
        CHECK(tracks[i].times.start_frame == times[i].start_frame);
        CHECK(tracks[i].times.duration_frames == times[i].duration_frames);
        CHECK(same_time(tracks[i].times.stored_start, times[i].start));
        CHECK(same_time(tracks[i].times.stored_duration, times[i].duration));
    }
}

/* The example in six sectors, with a text block. */
#define TEXTS (6 * SCARLETBOOK_SECTOR_SIZE)
static uint8_t texts[TEXTS];

/* Reads it with so many items of its track, from a place on. */
static scarletbook_table_answer read_items(uint8_t count, size_t place, const void *items, size_t size)
{
    size_t offset = place - 6148;
    memset(texts, 0, sizeof texts);
    make_table(texts);
    put(texts + 6144, "SACDTTxt", 8);
    texts[6152] = (uint8_t)(offset >> 8);
    texts[6153] = (uint8_t)offset;
    texts[place - 4] = count;
    memcpy(texts + place, items, size);
    return scarletbook_read_table(texts, TEXTS, tracks, SCARLETBOOK_MAX_TRACKS, words, SCARLETBOOK_TABLE_WORDS);
}

/* Whether the track has a title at a place, how it ended, and a last warning behind 14 (0 for none). */
static int ended(scarletbook_table_answer read, uint32_t place, uint8_t end, uint32_t code)
{
    return read.refusal == 0 && is_text(tracks[0].text[SCARLETBOOK_TRACK_TITLE], place, end) &&
           is_text(tracks[0].text[SCARLETBOOK_TRACK_PERFORMER], 0, 0) && words[0] == 14u * 65536u + 256u + 1u &&
           (code == 0 ? read.warnings == 1 : read.warnings == 2 && words[1] == code * 65536u + 256u + 1u);
}

static void ends_of_texts(void)
{
    static uint8_t longest[2 + 4096] = {1, 0};
    const uint32_t unterminated = SCARLETBOOK_TRACK_TEXT_UNTERMINATED, last = TEXTS - 5;
    memset(longest + 2, 'a', 4096);
    CHECK(ended(read_items(1, 6656, "\1\0One", 5), 6658, SCARLETBOOK_ENDED_BY_ZERO_BYTE, 0));
    CHECK(ended(read_items(1, last, "\1\0One", 5), last + 2, SCARLETBOOK_ENDED_BY_TABLE_END, unterminated));
    CHECK(ended(read_items(1, 6656, longest, 4098), 6658, SCARLETBOOK_ENDED_BY_MAX_BYTES, unterminated));
    CHECK(ended(read_items(1, 6656, longest, 4097), 6658, SCARLETBOOK_ENDED_BY_ZERO_BYTE, 0));
    CHECK(ended(read_items(1, TEXTS - 4098, longest, 4098), TEXTS - 4096, SCARLETBOOK_ENDED_BY_MAX_BYTES,
                unterminated));
    CHECK(ended(read_items(1, last, "\10\0One", 5), 0, 0, SCARLETBOOK_TRACK_TEXT_TYPE_UNKNOWN));
    CHECK(ended(read_items(1, 6656, "\1\0", 2), 0, 0, 0));
}

/* A string of 4,096 bytes before a zero byte, or before the table's end, is ended by them. */
static void ends_of_strings(void)
{
    static uint8_t table[4097];
    memset(table, 'a', 4096);
    CHECK(scarletbook_string_end(table, 4097, 0) == SCARLETBOOK_ENDED_BY_MAX_BYTES);
    CHECK(scarletbook_string_end(table, 4097, 1) == SCARLETBOOK_ENDED_BY_ZERO_BYTE);
    CHECK(scarletbook_string_end(table, 4097, 4096) == SCARLETBOOK_ENDED_BY_ZERO_BYTE);
    CHECK(scarletbook_string_end(table, 4096, 0) == SCARLETBOOK_ENDED_BY_MAX_BYTES);
    CHECK(scarletbook_string_end(table, 4096, 1) == SCARLETBOOK_ENDED_BY_TABLE_END);
    CHECK(scarletbook_string_end(table, 4096, 4096) == SCARLETBOOK_ENDED_BY_TABLE_END);
    CHECK(scarletbook_string_end(table, 4096, SIZE_MAX) == SCARLETBOOK_ENDED_BY_TABLE_END);
}

/* What is lent for warnings, a word short; and the last warning's name and words. */
static void warnings(void)
{
    const uint8_t *table = image + TABLE * SCARLETBOOK_SECTOR_SIZE;
    const size_t size = 3 * SCARLETBOOK_SECTOR_SIZE;
    CHECK(scarletbook_read_table(table, size, tracks, 255, words, 1020).refusal == SCARLETBOOK_SHORT_BUFFER);
    CHECK(scarletbook_read_table(table, size, tracks, 255, words, 1021).refusal == 0);
    CHECK(scarletbook_read_disc(0, image, sizeof image, work, sizeof work, tracks, 510, words, 2046).refusal ==
          SCARLETBOOK_SHORT_BUFFER);
    CHECK(scarletbook_read_disc(0, image, sizeof image, work, sizeof work, tracks, 510, words, 2047).refusal == 0);
    CHECK(strcmp(scarletbook_warning_name(19), "track-text-unterminated") == 0);
    CHECK(strcmp(scarletbook_warning_words(19), "has a text not ended by a zero byte") == 0);
    CHECK(*scarletbook_warning_name(20) == 0 && *scarletbook_warning_words(20) == 0);
    CHECK(*scarletbook_warning_name(255) == 0 && *scarletbook_warning_words(255) == 0);
}

static void sectors(void)
{
    const uint32_t format = SCARLETBOOK_RAW2064;
    static uint8_t raw[3 * 2064];
    static uint8_t data[SCARLETBOOK_SECTOR_SIZE + 2];
    put(raw + 2 * 2064, "\0\0\0\1\3\2", 6);
    put(raw + 2 * 2064 + 12, "data", 4);
    CHECK(scarletbook_sector_count(format, sizeof raw) == 3);
    CHECK(scarletbook_contains(format, sizeof raw, 2, 1) && !scarletbook_contains(format, sizeof raw, 1, 3));
    CHECK(scarletbook_read_sectors(format, raw, sizeof raw, 2, 1, data, sizeof data, 2) == 0);
    CHECK(memcmp(data, "\0\0data\0", 7) == 0);
    CHECK(scarletbook_read_sectors(format, raw, sizeof raw, 2, 1, data, sizeof data, 3) == SCARLETBOOK_SHORT_BUFFER);
    CHECK(scarletbook_compare_sectors(format, raw, sizeof raw, 2, 1, data + 2, sizeof data - 2).equal == 1);
    CHECK(scarletbook_compare_sectors(format, raw, sizeof raw, 1, 1, data + 2, sizeof data - 2).equal == 0);
    CHECK(scarletbook_fingerprint(format, raw, sizeof raw, 2).digest == scarletbook_digest(data + 2, sizeof data - 2));
    CHECK(scarletbook_fingerprint(format, raw, sizeof raw, 3).refusal == SCARLETBOOK_NO_SUCH_ENTRY);
    CHECK(scarletbook_digest((const uint8_t *)"foobar", 6) == UINT64_C(0x85944171f73967e8));
    CHECK(scarletbook_wrapping_mul(UINT64_C(0x8000000000000001), 3) == UINT64_C(0x8000000000000003));
}

/* A sector of format 2 with a header, before data of any bytes. */
static uint8_t sector[2064];

static void make_sector(const char *header)
{
    memset(sector, 0xe9, sizeof sector);
    put(sector, header, 6);
}

static scarletbook_audit_answer audit(const char *header)
{
    make_sector(header);
    return scarletbook_audit(SCARLETBOOK_RAW2064, sector, sizeof sector, 0);
}

static void headers(void)
{
    static const uint8_t raw[2064] = {0, 0, 0, 1, 3, 2};
    CHECK(audit("\0\0\0\1\3\2").refusal == 0 && audit("\0\0\0\1\3\2").verdict == SCARLETBOOK_SOUND);
    CHECK(audit("\0\0\0\0\0\0").refusal == 0 && audit("\0\0\0\0\0\0").verdict == SCARLETBOOK_BLANK);
    CHECK(audit("\0\0\0\1\2\3").refusal == 0 && audit("\0\0\0\1\2\3").verdict == SCARLETBOOK_UNSOUND);
    CHECK(audit("\0\0\0\0\0\1").verdict == SCARLETBOOK_UNSOUND);
    CHECK(audit("\1\0\0\0\0\0").verdict == SCARLETBOOK_UNSOUND);
    scarletbook_audit_answer refused = scarletbook_audit(3, raw, sizeof raw, 0);
    CHECK(refused.refusal == SCARLETBOOK_FOREIGN_FORMAT && refused.verdict == 0);
    refused = scarletbook_audit(SCARLETBOOK_PLAIN, raw, sizeof raw, 0);
    CHECK(refused.refusal == SCARLETBOOK_NO_HEADER && refused.verdict == 0);
    refused = scarletbook_audit(SCARLETBOOK_RAW2064, raw, sizeof raw, 1);
    CHECK(refused.refusal == SCARLETBOOK_NO_SUCH_ENTRY && refused.verdict == 0);
    refused = scarletbook_audit(SCARLETBOOK_RAW2064, raw, sizeof raw - 1, 0);
    CHECK(refused.refusal == SCARLETBOOK_NO_SUCH_ENTRY && refused.verdict == 0);
}

/* Whether a header mends to another, and no byte of the image changes. */
static int mends(const char *header, const char *expected)
{
    static uint8_t before[sizeof sector];
    make_sector(header);
    memcpy(before, sector, sizeof sector);
    scarletbook_mended mended = scarletbook_mend(SCARLETBOOK_RAW2064, sector, sizeof sector, 0);
    return mended.refusal == 0 && memcmp(mended.header, expected, 6) == 0 &&
           memcmp(before, sector, sizeof sector) == 0;
}

/* Whether the sector of the last header is refused by a number, with six zeros. */
static int not_mended(uint32_t format, size_t size, uint32_t lsn, uint8_t refusal)
{
    scarletbook_mended mended = scarletbook_mend(format, sector, size, lsn);
    return mended.refusal == refusal && memcmp(mended.header, "\0\0\0\0\0\0", 6) == 0;
}

static void mended_headers(void)
{
    static const char correct[] = "\0\0\0\1\3\2", blank[] = "\0\0\0\0\0\0";
    CHECK(mends("\7\0\0\1\3\2", correct));
    CHECK(mends("\0\1\0\1\3\2", correct));
    CHECK(mends("\0\0\377\1\3\2", correct));
    CHECK(mends("\0\0\0\0\3\2", correct));
    CHECK(mends("\0\0\0\1\2\2", correct));
    CHECK(mends("\0\0\0\1\3\200", correct));
    CHECK(mends(correct, correct));
    CHECK(mends(blank, blank));
    CHECK(mends("\0\0\0\0\0\1", blank));
    CHECK(mends("\200\0\0\0\0\0", blank));
}

static void headers_beyond_mending(void)
{
    const uint32_t format = SCARLETBOOK_RAW2064;
    make_sector("\0\0\0\1\2\3");
    CHECK(not_mended(format, sizeof sector, 0, SCARLETBOOK_BEYOND_MENDING));
    CHECK(not_mended(format, sizeof sector, 1, SCARLETBOOK_NO_SUCH_ENTRY));
    CHECK(not_mended(format, sizeof sector - 1, 0, SCARLETBOOK_NO_SUCH_ENTRY));
    CHECK(not_mended(SCARLETBOOK_PLAIN, sizeof sector, 0, SCARLETBOOK_NO_HEADER));
    CHECK(not_mended(SCARLETBOOK_RAW2054, sizeof sector, 1, SCARLETBOOK_NO_HEADER));
    CHECK(not_mended(3, sizeof sector, 0, SCARLETBOOK_FOREIGN_FORMAT));
    CHECK(not_mended(3, sizeof sector, 1, SCARLETBOOK_FOREIGN_FORMAT));
}

/* Three sectors and a rest, as an image and as gathered; what is lent to be written, between bytes that stay. */
#define STORED 2064
#define REST 100
#define LENT (3 * STORED + REST)
static uint8_t stored[LENT], gathered[LENT];
static uint8_t around[LENT + 2 * STORED];
static uint8_t *const out = around + STORED;

/* Where a byte of the image stands among the gathered ones. */
static size_t gathered_at(size_t at)
{
    size_t sector = at / STORED, in = at % STORED;
    if (sector == 3)
        return at;
    if (in < 12)
        return sector * 12 + in;
    if (in < 2060)
        return 3 * 12 + sector * 2048 + in - 12;
    return 3 * 2060 + sector * 4 + in - 2060;
}

static void make_gathered(void)
{
    size_t at;
    for (at = 0; at < LENT; at++) {
        stored[at] = (uint8_t)(at * 7 + at / STORED * 31);
        gathered[gathered_at(at)] = stored[at];
    }
}

/* Whether all but the first bytes of `out` is as it was. */
static int stays(size_t written)
{
    size_t at;
    for (at = 0; at < sizeof around; at++)
        if (around[at] != 0xe9 && (at < STORED || at >= STORED + written))
            return 0;
    return 1;
}

typedef uint8_t way(const uint8_t *bytes, size_t bytes_len, uint8_t *lent, size_t lent_len);

/* Whether a way gives what is expected, and changes nothing beside it. */
static int gives(way *call, const uint8_t *bytes, const uint8_t *expected)
{
    memset(around, 0xe9, sizeof around);
    return call(bytes, LENT, out, LENT) == 0 && memcmp(out, expected, LENT) == 0 && stays(LENT);
}

/* Whether a way refuses so many bytes beside so many lent ones, and changes nothing. */
static int refuses(way *call, size_t bytes_len, size_t lent_len)
{
    memset(around, 0xe9, sizeof around);
    return call(stored, bytes_len, out, lent_len) == SCARLETBOOK_UNEQUAL_LENGTHS && stays(0);
}

static void tape(void)
{
    way *const ways[2] = {scarletbook_gather_sectors, scarletbook_scatter_sectors};
    size_t i;
    make_gathered();
    CHECK(memcmp(stored, gathered, LENT) != 0);
    CHECK(gives(scarletbook_gather_sectors, stored, gathered));
    CHECK(gives(scarletbook_scatter_sectors, gathered, stored));
    for (i = 0; i < 2; i++) {
        CHECK(refuses(ways[i], LENT, LENT + 1));
        CHECK(refuses(ways[i], LENT, LENT - 1));
        CHECK(refuses(ways[i], LENT, LENT - REST));
        CHECK(refuses(ways[i], LENT - STORED, LENT));
        CHECK(refuses(ways[i], LENT, 0));
        CHECK(refuses(ways[i], 0, LENT));
        CHECK(ways[i](stored, LENT, NULL, 0) == SCARLETBOOK_UNEQUAL_LENGTHS);
        CHECK(ways[i](NULL, 0, out, 1) == SCARLETBOOK_UNEQUAL_LENGTHS && stays(0));
    }
}

static void parts_of_tables(void)
{
    static const uint8_t bytes[] = {1, 2, 3, 'a', 0xe9, 0};
    static const uint8_t field[] = " A1 \0xyz";
    scarletbook_timecode time = {1, 2, 3};
    CHECK(scarletbook_byte_at(bytes, sizeof bytes, 2) == 3 && scarletbook_byte_at(bytes, sizeof bytes, 6) == 0);
    CHECK(scarletbook_be16_at(bytes, sizeof bytes, 1) == 0x0203);
    CHECK(scarletbook_be32_at(bytes, sizeof bytes, 0) == 0x01020361);
    CHECK(scarletbook_string_length(bytes, sizeof bytes, 3) == 2);
    CHECK(scarletbook_string_end(bytes, sizeof bytes, 3) == SCARLETBOOK_ENDED_BY_ZERO_BYTE);
    CHECK(scarletbook_charset(8) == 0 && scarletbook_charset(11) == 3);
    scarletbook_decode_answer text = scarletbook_decode(bytes + 3, 2, 2, NULL, 0, page, 3);
    CHECK(text.refusal == 0 && text.len == 3 && memcmp(page, "a\303\251", 3) == 0);
    static uint8_t longest[4096];
    memset(longest, 0xe9, sizeof longest);
    CHECK(scarletbook_decode(longest, sizeof longest, 2, NULL, 0, page, sizeof page).len == 2 * sizeof longest);
    CHECK(scarletbook_decode(bytes + 3, 2, 3, NULL, 0, page, 3).refusal == SCARLETBOOK_SET_NOT_HELD);
    CHECK(scarletbook_decode(bytes + 3, 2, 2, NULL, 0, page, 2).refusal == SCARLETBOOK_SHORT_PAGE);
    scarletbook_fixed_text_record fixed = scarletbook_fixed_bytes(field, 8);
    CHECK(fixed.len == 4 && memcmp(fixed.bytes, " A1 \0\0\0\0", 8) == 0);
    fixed = scarletbook_fixed_text(field, 8);
    CHECK(fixed.len == 2 && memcmp(fixed.bytes, "A1\0\0", 4) == 0);
    scarletbook_language_code language = scarletbook_language('f', ' ');
    CHECK(language.len == 1 && language.bytes[0] == 'f' && language.bytes[1] == 0);
    CHECK(scarletbook_frame_number(time) == 4653);
    scarletbook_cap_answer cap = scarletbook_cap(4400, 101, 4500);
    CHECK(cap.start_frame == 4400 && cap.duration_frames == 100 && cap.past_playtime == 1);
}

/* A single, a pair whose value is a double, that double. */
static const uint32_t mapping[] = {1, 'a', 0x3042, 1, 0x82f5, UINT32_C(0x80000000), 1, 0x304b, 0x1f};
#define MAPPING mapping, sizeof mapping / sizeof mapping[0]

static void mappings(void)
{
    static const uint8_t bytes[] = {'a', 0x82, 0xf5, 'b'};
    scarletbook_decode_answer text = scarletbook_decode(bytes, sizeof bytes, 3, MAPPING, page, 10);
    CHECK(text.refusal == 0 && text.len == 10);
    CHECK(memcmp(page, "\343\201\202\343\201\213 \357\277\275", 10) == 0);
    CHECK(scarletbook_decode(bytes, sizeof bytes, 3, MAPPING, page, 9).refusal == SCARLETBOOK_SHORT_PAGE);
    CHECK(scarletbook_decode(bytes, 1, 2, MAPPING, page, 1).len == 1 && page[0] == 'a');
    /* A count beyond the words, a repeated key, a surrogate; 12 comes before 10. */
    static const uint32_t beyond[] = {0, 0, 1}, repeated[] = {2, 'a', 'a', 'a', 'a', 0, 0};
    static const uint32_t surrogate[] = {1, 'a', 0xd800, 0, 0};
    CHECK(scarletbook_decode(bytes, 1, 3, beyond, 3, NULL, 0).refusal == SCARLETBOOK_BAD_MAPPING);
    CHECK(scarletbook_decode(bytes, 1, 4, repeated, 7, page, 8).refusal == SCARLETBOOK_BAD_MAPPING);
    CHECK(scarletbook_decode(bytes, 1, 6, surrogate, 5, page, 8).refusal == SCARLETBOOK_BAD_MAPPING);
    CHECK(scarletbook_decode(bytes, 1, 2, surrogate, 5, page, 8).refusal == 0);
    CHECK(scarletbook_decode(bytes, 0, 3, surrogate, 5, NULL, 0).refusal == 0);
    CHECK(strcmp(scarletbook_refusal_word(SCARLETBOOK_BAD_MAPPING), "bad mapping") == 0);
    CHECK(scarletbook_refusal_word(13)[0] == 0);
    /* Every byte gives two code points of four bytes each. */
    static const uint32_t widest[] = {1, 'a', UINT32_C(0x80000000), 0, 1, 0x1d11e, 0x10ffff};
    static uint8_t longest[4096];
    memset(longest, 'a', sizeof longest);
    text = scarletbook_decode(longest, sizeof longest, 5, widest, 7, page, sizeof page);
    CHECK(text.refusal == 0 && text.len == SCARLETBOOK_PAGE_BYTES);
}

/* Texts of the records by the mapping, the disc's and the area's of set 3. */
static void mapped_records(void)
{
    make_image();
    uint8_t *master = image + MASTER * SCARLETBOOK_SECTOR_SIZE, *table = image + TABLE * SCARLETBOOK_SECTOR_SIZE;
    put(master + 128, "\1\0\0\0\0\0\0\0jp\3", 11);
    put(master + 2048 + 1024, "a\202\365\0", 4);
    put(table + 80, "\1\0\0\0\0\0\0\0jp\3", 11);
    scarletbook_disc_answer disc =
        scarletbook_read_disc(SCARLETBOOK_PLAIN, image, sizeof image, work, sizeof work, tracks,
                              SCARLETBOOK_TRACK_RECORDS, words, SCARLETBOOK_WARNING_WORDS);
    scarletbook_area area = disc.multichannel;
    CHECK(disc.refusal == 0 && scarletbook_charset(disc.master.text_charset) == 3 && area.text_charset == 3);
    scarletbook_decode_answer text = scarletbook_decode_disc_text(
        work, sizeof work, disc.master, SCARLETBOOK_DISC_TITLE, MAPPING, page, sizeof page);
    CHECK(text.refusal == 0 && text.len == 7 && memcmp(page, "\343\201\202\343\201\213 ", 7) == 0);
    text = scarletbook_decode_disc_area_text(work, sizeof work, area, 0, MAPPING, page, sizeof page);
    CHECK(text.len == 12 && memcmp(page + 9, "\343\201\202", 3) == 0);
    CHECK(scarletbook_decode_disc_area_text(work, sizeof work, area, 1, mapping, 1, page, 0).refusal == 0);
    CHECK(scarletbook_decode_disc_area_text(work, sizeof work, area, 4, mapping, 1, page, 0).refusal ==
          SCARLETBOOK_NO_SUCH_ENTRY);
    tracks[SCARLETBOOK_MULTICHANNEL_FIRST].text[SCARLETBOOK_TRACK_TITLE].place = 1795;
    text = scarletbook_decode_disc_track_text(work, sizeof work, area, tracks, SCARLETBOOK_TRACK_RECORDS, 1,
                                              SCARLETBOOK_TRACK_TITLE, MAPPING, page, sizeof page);
    CHECK(text.len == 3 && memcmp(page, "\343\201\202", 3) == 0);
    const uint8_t *lone = work + SCARLETBOOK_MULTICHANNEL_REGION;
    text = scarletbook_decode_area_text(lone, 6144, area, 0, MAPPING, page, sizeof page);
    CHECK(text.len == 12);
    text = scarletbook_decode_track_text(lone, 6144, area, tracks + SCARLETBOOK_MULTICHANNEL_FIRST,
                                         SCARLETBOOK_MAX_TRACKS, 1, SCARLETBOOK_TRACK_TITLE, mapping, 1, page, 0);
    CHECK(text.refusal == SCARLETBOOK_BAD_MAPPING && text.len == 0);
}

/* The readings and decodings with no memory. */
static void no_memory(void)
{
    scarletbook_master_toc master;
    scarletbook_area area;
    memset(&master, 0, sizeof master);
    memset(&area, 0, sizeof area);
    area.present = 1;
    area.origin.slot = 1;
    area.track_count = 1;
    CHECK(scarletbook_detect_format(NULL, 0).refusal == SCARLETBOOK_NOT_SCARLET_BOOK);
    CHECK(scarletbook_read_disc(0, NULL, 0, NULL, 0, NULL, 0, NULL, 0).refusal == SCARLETBOOK_SHORT_BUFFER);
    CHECK(scarletbook_read_disc(0, NULL, 0, work, sizeof work, tracks, SCARLETBOOK_TRACK_RECORDS, words,
                                SCARLETBOOK_WARNING_WORDS).refusal == SCARLETBOOK_CUT_MASTER);
    CHECK(scarletbook_decode_disc_text(NULL, 0, master, 0, NULL, 0, NULL, 0).refusal == SCARLETBOOK_SHORT_BUFFER);
    CHECK(scarletbook_decode_disc_text(work, sizeof work, master, 0, NULL, 0, NULL, 0).refusal == 0);
    CHECK(scarletbook_decode_disc_area_text(NULL, 0, area, 0, NULL, 0, NULL, 0).refusal == SCARLETBOOK_SHORT_BUFFER);
    CHECK(scarletbook_decode_disc_track_text(NULL, 0, area, NULL, 0, 1, 0, NULL, 0, NULL, 0).refusal ==
          SCARLETBOOK_SHORT_BUFFER);
    CHECK(scarletbook_read_table(NULL, 0, NULL, 0, NULL, 0).refusal == SCARLETBOOK_ODD_TABLE);
    CHECK(scarletbook_decode_area_text(NULL, 0, area, 0, NULL, 0, NULL, 0).refusal == 0);
    CHECK(scarletbook_decode_track_text(NULL, 0, area, NULL, 0, 1, 0, NULL, 0, NULL, 0).refusal ==
          SCARLETBOOK_SHORT_BUFFER);
    CHECK(scarletbook_table_head(NULL, 0, 1, 0, 1).skip == SCARLETBOOK_AREA_SIGNATURE_INVALID);
    CHECK(scarletbook_draw_at(NULL, 0, 0, 1).found == 0);
}

/* The other functions with no memory. */
static void no_bytes(void)
{
    CHECK(scarletbook_read_sectors(0, NULL, 0, 0, 0, NULL, 0, 0) == 0);
    CHECK(scarletbook_read_sectors(0, NULL, 0, 0, 1, page, sizeof page, 0) == SCARLETBOOK_NO_SUCH_ENTRY);
    CHECK(scarletbook_compare_sectors(0, NULL, 0, 0, 0, NULL, 0).equal == 1);
    CHECK(scarletbook_audit(SCARLETBOOK_RAW2064, NULL, 0, 0).refusal == SCARLETBOOK_NO_SUCH_ENTRY);
    CHECK(scarletbook_mend(SCARLETBOOK_RAW2064, NULL, 0, 0).refusal == SCARLETBOOK_NO_SUCH_ENTRY);
    CHECK(scarletbook_mend(SCARLETBOOK_PLAIN, NULL, 0, 0).refusal == SCARLETBOOK_NO_HEADER);
    CHECK(scarletbook_mend(3, NULL, 0, 0).refusal == SCARLETBOOK_FOREIGN_FORMAT);
    CHECK(scarletbook_gather_sectors(NULL, 0, NULL, 0) == 0);
    CHECK(scarletbook_scatter_sectors(NULL, 0, NULL, 0) == 0);
    CHECK(scarletbook_fingerprint(0, NULL, 0, 0).refusal == SCARLETBOOK_NO_SUCH_ENTRY);
    CHECK(scarletbook_digest(NULL, 0) == UINT64_C(0xcbf29ce484222325));
    CHECK(scarletbook_byte_at(NULL, 0, 0) == 0);
    CHECK(scarletbook_be16_at(NULL, 0, 0) == 0);
    CHECK(scarletbook_be32_at(NULL, 0, 0) == 0);
    CHECK(scarletbook_string_length(NULL, 0, 0) == 0);
    CHECK(scarletbook_string_end(NULL, 0, 0) == SCARLETBOOK_ENDED_BY_TABLE_END);
    CHECK(scarletbook_decode(NULL, 0, 2, NULL, 0, NULL, 0).len == 0);
    CHECK(scarletbook_decode(NULL, 0, 3, NULL, 0, NULL, 0).refusal == 0);
    CHECK(scarletbook_decode(page, 1, 2, NULL, 0, NULL, 0).refusal == SCARLETBOOK_SHORT_PAGE);
    CHECK(scarletbook_decode(page, 1, 3, NULL, 0, NULL, 0).refusal == SCARLETBOOK_SET_NOT_HELD);
    CHECK(scarletbook_fixed_bytes(NULL, 0).len == 0);
    CHECK(scarletbook_fixed_text(NULL, 0).len == 0);
}

int main(void)
{
    discs();
    lone_tables();
    times_of_tracks();
    ends_of_texts();
    ends_of_strings();
    warnings();
    sectors();
    headers();
    mended_headers();
    headers_beyond_mending();
    tape();
    parts_of_tables();
    mappings();
    mapped_records();
    no_memory();
    no_bytes();
    printf("%u checks\n", checks);
    return faults != 0;
}
