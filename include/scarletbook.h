/*
 * scarletbook: reads the tables of contents of SACD images, by a library that is proved: every answer
 * equals a written definition, for every input. For C99, C11 and C++, on Linux and x86-64.
 *
 *     cc -Iinclude program.c host/target/archive/libscarletbook.a -o program
 *
 * The usual order of calls, as in host/c/example.c:
 *
 *     1. scarletbook_detect_format: how the image stores its sectors;
 *     2. scarletbook_read_disc: the master record, the areas, the tracks, the warnings;
 *     3. scarletbook_decode_disc_text, .._decode_disc_area_text, .._decode_disc_track_text: the texts.
 *
 * Of every call:
 *
 *   - What is lent is a pointer and a count of elements. NULL is fine where the count is 0.
 *   - What is lent to be written overlaps nothing else that is lent to the same call.
 *   - It takes any bytes and any numbers, trusts no record that is handed in, and returns.
 *   - It allocates nothing, keeps nothing and shares nothing: threads may call at the same time, as long as
 *     none writes what another is lent.
 *   - A refusal is a number, 0 for none. Except for refusal 6, a call that refuses writes nothing.
 *   - A flag in a record is a byte, 0 or 1. Sector addresses and frame numbers are plain numbers of 32 bits.
 */
#ifndef SCARLETBOOK_H
#define SCARLETBOOK_H

#include <stdbool.h>
#include <stddef.h>
#include <stdint.h>

#ifdef __cplusplus
extern "C" {
#endif

/* ---- Sizes ---- */

/* The data bytes of a sector. */
#define SCARLETBOOK_SECTOR_SIZE 2048

/* What disc reading is lent at least: bytes, records, words. */
#define SCARLETBOOK_WORK_BYTES 544768
#define SCARLETBOOK_TRACK_RECORDS 510
#define SCARLETBOOK_WARNING_WORDS 2047

/* What the reading of a lone table is lent at least: records, words. */
#define SCARLETBOOK_MAX_TRACKS 255
#define SCARLETBOOK_TABLE_WORDS 1021

/* A page of so many bytes has room for every text: 4,096 bytes, each of which gives at most 8; of Latin-1 at most 2. */
#define SCARLETBOOK_PAGE_BYTES 32768

/* Where the tables that were read begin in the work bytes. */
#define SCARLETBOOK_TWO_CHANNEL_REGION 0
#define SCARLETBOOK_MULTICHANNEL_REGION 262144
#define SCARLETBOOK_MASTER_REGION 524288

/* The first track record of each area after disc reading. */
#define SCARLETBOOK_TWO_CHANNEL_FIRST 0
#define SCARLETBOOK_MULTICHANNEL_FIRST 255

/* The elements of arrays in records. */
#define SCARLETBOOK_FIXED_BYTES 16
#define SCARLETBOOK_GENRES 4
#define SCARLETBOOK_MASTER_LOCALES 8
#define SCARLETBOOK_MAX_LOCALES 10
#define SCARLETBOOK_DISC_TEXTS 16
#define SCARLETBOOK_AREA_TEXTS 4
#define SCARLETBOOK_TRACK_TEXTS 14

/* ---- Sector formats ---- */

enum {
    SCARLETBOOK_PLAIN = 0,   /* 2,048 bytes a sector, all of them data */
    SCARLETBOOK_RAW2054 = 1, /* 2,054 bytes a sector, data from byte 6 */
    SCARLETBOOK_RAW2064 = 2  /* 2,064 bytes a sector, data from byte 12, behind a header */
};

/* ---- Verdicts on a sector header; 0 is none ---- */

enum {
    SCARLETBOOK_SOUND = 1,  /* a multiple of (x + 1)(x + alpha), and not blank */
    SCARLETBOOK_BLANK = 2,  /* six zero bytes, as in unwritten stretches, whatever the data are */
    SCARLETBOOK_UNSOUND = 3 /* no multiple */
};

/* ---- How a stored string ended; 0 for an absent text ---- */

enum {
    SCARLETBOOK_ENDED_BY_ZERO_BYTE = 1, /* before a zero byte */
    SCARLETBOOK_ENDED_BY_MAX_BYTES = 2, /* after 4,096 bytes, the most there are, whatever stands behind them */
    SCARLETBOOK_ENDED_BY_TABLE_END = 3  /* at the end of its table; a text of the disc, at that of sector 1 */
};

/* ---- Refusals ---- */

enum {
    SCARLETBOOK_FOREIGN_FORMAT = 1,   /* the format is not 0, 1 or 2 */
    SCARLETBOOK_SHORT_BUFFER = 2,     /* less is lent than the call asks for */
    SCARLETBOOK_CUT_MASTER = 3,       /* the image has fewer than 520 whole sectors */
    SCARLETBOOK_NOT_SCARLET_BOOK = 4, /* LSN 510 does not begin SACDMTOC */
    SCARLETBOOK_NEWER_EDITION = 5,    /* the master table's major version is above 1 */
    SCARLETBOOK_NO_AREA = 6,          /* neither slot, or not the lone table, yields an area */
    SCARLETBOOK_ODD_TABLE = 7,        /* a lone table of 0 bytes, over 262,144, or no multiple of 2,048 */
    SCARLETBOOK_NO_SUCH_ENTRY = 8,    /* no such track, item or area, or a sector not in the image */
    SCARLETBOOK_SET_NOT_HELD = 9,     /* a text that is there is of set 3 to 6, and no word of a mapping is lent */
    SCARLETBOOK_SHORT_PAGE = 10,      /* the decoded text is longer than the page lent */
    SCARLETBOOK_NO_HEADER = 11,       /* sectors of format 0 or 1 have no header to audit or to mend */
    SCARLETBOOK_BAD_MAPPING = 12,     /* a text that is there is of set 3 to 6, and the words lent are no mapping */
    SCARLETBOOK_BEYOND_MENDING = 14,  /* no correct header differs from this one in at most one place */
    SCARLETBOOK_UNEQUAL_LENGTHS = 20  /* the two buffers are not of equal length */
};

/* The word of a refusal, as in "not Scarlet Book"; "" for a number that no refusal has. */
static inline const char *scarletbook_refusal_word(uint8_t refusal)
{
    static const char *const words[] = {
        "",
        "foreign format",
        "short bench",
        "cut master",
        "not Scarlet Book",
        "newer edition",
        "silent disc",
        "odd table",
        "no such entry",
        "set not held",
        "short page",
        "no header",
        "bad mapping",
        "", /* 13 is no refusal */
        "beyond mending",
        "", /* 15 to 19 are no refusals */
        "",
        "",
        "",
        "",
        "unequal lengths",
    };
    return refusal <= SCARLETBOOK_UNEQUAL_LENGTHS ? words[refusal] : "";
}

/* ---- Warnings: what was met in a reading that did not refuse it ---- */

enum {
    SCARLETBOOK_MASTER_TEXT_MISSING = 1,
    SCARLETBOOK_MANUFACTURER_MISSING = 2,
    SCARLETBOOK_AREA_TOC_TOO_LARGE = 3,
    SCARLETBOOK_AREA_TOC1_UNREADABLE = 4,
    SCARLETBOOK_AREA_TOC2_UNREADABLE = 5,
    SCARLETBOOK_AREA_TOC_COPIES_DIFFER = 6,
    SCARLETBOOK_AREA_TOC_UNREADABLE = 7,
    SCARLETBOOK_AREA_SIGNATURE_INVALID = 8,
    SCARLETBOOK_AREA_TRACK_LIST_MISSING = 9,
    SCARLETBOOK_AREA_TOC_MALFORMED = 10,
    SCARLETBOOK_AREA_AUDIO_RANGE_REVERSED = 11,
    SCARLETBOOK_TRACK_TEXT_OFFSET_INVALID = 12,
    SCARLETBOOK_TRACK_TEXT_TYPE_UNKNOWN = 13,
    SCARLETBOOK_TRACK_PAST_PLAYTIME = 14,
    SCARLETBOOK_TRACK_LSN_OUTSIDE_AREA = 15,
    SCARLETBOOK_AUDIO_SECTOR_MALFORMED = 16, /* never comes from this library */
    SCARLETBOOK_MASTER_TOC_COPIES_DIFFER = 17,
    SCARLETBOOK_SAMPLE_FREQUENCY_UNKNOWN = 18,
    SCARLETBOOK_TRACK_TEXT_UNTERMINATED = 19 /* once for a track, the last of its warnings */
};

/* A warning word is code times 65,536 + slot times 256 + track. */

/* The code of a warning word. */
static inline uint8_t scarletbook_warning_code(uint32_t word)
{
    return (uint8_t)(word >> 16);
}

/* The slot that a warning word is about: 1 or 2, or 0 for the disc. */
static inline uint8_t scarletbook_warning_slot(uint32_t word)
{
    return (uint8_t)(word >> 8);
}

/* The track that a warning word is about, by its number; 0 for none. */
static inline uint8_t scarletbook_warning_track(uint32_t word)
{
    return (uint8_t)word;
}

/* The name of a warning's code in a catalogue; "" for 0 and above 19. */
static inline const char *scarletbook_warning_name(uint8_t code)
{
    static const char *const names[] = {
        "",
        "master-text-missing",
        "manufacturer-missing",
        "area-toc-too-large",
        "area-toc1-unreadable",
        "area-toc2-unreadable",
        "area-toc-copies-differ",
        "area-toc-unreadable",
        "area-signature-invalid",
        "area-track-list-missing",
        "area-toc-malformed",
        "area-audio-range-reversed",
        "track-text-offset-invalid",
        "track-text-type-unknown",
        "track-past-playtime",
        "track-lsn-outside-area",
        "audio-sector-malformed",
        "master-toc-copies-differ",
        "sample-frequency-unknown",
        "track-text-unterminated",
    };
    return code <= SCARLETBOOK_TRACK_TEXT_UNTERMINATED ? names[code] : "";
}

/* What a warning's code says of the disc, area or track, in words; "" for 0 and above 19. */
static inline const char *scarletbook_warning_words(uint8_t code)
{
    static const char *const words[] = {
        "",
        "no disc texts, though text channels are counted",
        "no manufacturer's sector",
        "its table has more than 128 sectors; left out",
        "the first copy of its table cannot be read",
        "the second copy of its table cannot be read",
        "the two copies of its table differ",
        "no copy of its table can be read; left out",
        "its table begins with neither TWOCHTOC nor MULCHTOC; left out",
        "its table has no list of tracks; left out",
        "its list of ISRCs and genres ends behind its table; left out",
        "its audio ends before it starts; left out",
        "its texts are placed behind the table",
        "has a text of an unknown type",
        "ends after the area's play time; cut to it",
        "starts outside the area's sectors",
        "a malformed audio sector",
        "a copy of the master table differs",
        "its sample frequency code is not that of DSD64",
        "has a text not ended by a zero byte",
    };
    return code <= SCARLETBOOK_TRACK_TEXT_UNTERMINATED ? words[code] : "";
}

/* ---- Items: the texts of a disc, of an area and of a track ---- */

enum {
    SCARLETBOOK_ALBUM_TITLE = 0,
    SCARLETBOOK_ALBUM_ARTIST = 1,
    SCARLETBOOK_ALBUM_PUBLISHER = 2,
    SCARLETBOOK_ALBUM_COPYRIGHT = 3,
    SCARLETBOOK_ALBUM_TITLE_PHONETIC = 4,
    SCARLETBOOK_ALBUM_ARTIST_PHONETIC = 5,
    SCARLETBOOK_ALBUM_PUBLISHER_PHONETIC = 6,
    SCARLETBOOK_ALBUM_COPYRIGHT_PHONETIC = 7,
    SCARLETBOOK_DISC_TITLE = 8,
    SCARLETBOOK_DISC_ARTIST = 9,
    SCARLETBOOK_DISC_PUBLISHER = 10,
    SCARLETBOOK_DISC_COPYRIGHT = 11,
    SCARLETBOOK_DISC_TITLE_PHONETIC = 12,
    SCARLETBOOK_DISC_ARTIST_PHONETIC = 13,
    SCARLETBOOK_DISC_PUBLISHER_PHONETIC = 14,
    SCARLETBOOK_DISC_COPYRIGHT_PHONETIC = 15
};

enum {
    SCARLETBOOK_AREA_DESCRIPTION = 0,
    SCARLETBOOK_AREA_COPYRIGHT = 1,
    SCARLETBOOK_AREA_DESCRIPTION_PHONETIC = 2,
    SCARLETBOOK_AREA_COPYRIGHT_PHONETIC = 3
};

enum {
    SCARLETBOOK_TRACK_TITLE = 0,
    SCARLETBOOK_TRACK_PERFORMER = 1,
    SCARLETBOOK_TRACK_SONGWRITER = 2,
    SCARLETBOOK_TRACK_COMPOSER = 3,
    SCARLETBOOK_TRACK_ARRANGER = 4,
    SCARLETBOOK_TRACK_MESSAGE = 5,
    SCARLETBOOK_TRACK_EXTRA_MESSAGE = 6,
    SCARLETBOOK_TRACK_TITLE_PHONETIC = 7,
    SCARLETBOOK_TRACK_PERFORMER_PHONETIC = 8,
    SCARLETBOOK_TRACK_SONGWRITER_PHONETIC = 9,
    SCARLETBOOK_TRACK_COMPOSER_PHONETIC = 10,
    SCARLETBOOK_TRACK_ARRANGER_PHONETIC = 11,
    SCARLETBOOK_TRACK_MESSAGE_PHONETIC = 12,
    SCARLETBOOK_TRACK_EXTRA_MESSAGE_PHONETIC = 13
};

/* ---- Records ----
 *
 * Named as in Rust. The two whose names are those of functions end in _record: fixed_text, table_head.
 * Compare two by their fields: what stands between these in memory means nothing.
 */

/* The text of a fixed field, one byte a character: the text, and zeros past it. */
typedef struct scarletbook_fixed_text_record {
    uint8_t bytes[SCARLETBOOK_FIXED_BYTES];
    uint8_t len;
} scarletbook_fixed_text_record;

/* A language code, one byte a character: the code, and zeros past it. */
typedef struct scarletbook_language_code {
    uint8_t bytes[2];
    uint8_t len;
} scarletbook_language_code;

/* A locale. */
typedef struct scarletbook_locale {
    scarletbook_language_code language;
    uint8_t language_code[2]; /* the two bytes of the language, as stored */
    uint8_t charset;
} scarletbook_locale;

/* A timecode, as stored: its seconds may be above 59, its frames above 74. */
typedef struct scarletbook_timecode {
    uint8_t minutes;
    uint8_t seconds;
    uint8_t frames;
} scarletbook_timecode;

/* A genre entry. */
typedef struct scarletbook_genre {
    uint8_t category;
    uint8_t index;
} scarletbook_genre;

/* A structure version number. */
typedef struct scarletbook_version {
    uint8_t major;
    uint8_t minor;
} scarletbook_version;

/* A date, as stored. */
typedef struct scarletbook_date {
    uint16_t year;
    uint8_t month;
    uint8_t day;
} scarletbook_date;

/* Where the master table says that a slot's table copies are. */
typedef struct scarletbook_area_pointer {
    uint32_t toc1_lsn;    /* 0 for an unused slot */
    uint32_t toc2_lsn;    /* 0 for no second copy */
    uint16_t toc_sectors; /* 0 for an unused slot */
} scarletbook_area_pointer;

/* Where an area's table came from. */
typedef struct scarletbook_table_origin {
    uint8_t slot; /* 1 two-channel, 2 multichannel */
    uint32_t toc_lsn;
    uint16_t toc_sectors;
} scarletbook_table_origin;

/*
 * When a track starts and how long it lasts: capped at the play time of its area, and as stored. The frame numbers,
 * 75 a second, are those of the stored timecodes, unless these together exceed the play time. Exactly then the start
 * is capped at it, the duration at what is left of it, and the track has warning 14.
 */
typedef struct scarletbook_track_times {
    uint32_t start_frame;     /* capped */
    uint32_t duration_frames; /* capped */
    scarletbook_timecode stored_start;
    scarletbook_timecode stored_duration;
} scarletbook_track_times;

/* The place of a text's string in its table, and how the string ended; both 0 for an absent text. */
typedef struct scarletbook_text_place {
    uint32_t place;
    uint8_t end; /* SCARLETBOOK_ENDED_BY_ZERO_BYTE, .._BY_MAX_BYTES or .._BY_TABLE_END */
} scarletbook_text_place;

/* A track; an absent ISRC or genre is zero. */
typedef struct scarletbook_track {
    uint8_t number; /* from 1 */
    uint32_t start_lsn;
    uint32_t length_sectors;
    scarletbook_track_times times;
    uint8_t start_flags;
    uint8_t duration_flags;
    uint8_t has_isrc;
    scarletbook_fixed_text_record isrc;
    uint8_t has_genre;
    scarletbook_genre genre;
    scarletbook_text_place text[SCARLETBOOK_TRACK_TEXTS];
} scarletbook_track;

/* The record of an area; all zero where there is none. */
typedef struct scarletbook_area {
    uint8_t present; /* 1 for an area */
    scarletbook_table_origin origin;
    uint8_t kind; /* 1 for TWOCHTOC, 2 for MULCHTOC */
    scarletbook_version version;
    uint32_t max_byte_rate;
    uint8_t sample_frequency_code; /* 4 for DSD64 */
    uint8_t frame_format;
    uint8_t channel_count;
    uint8_t area_config;
    uint8_t max_available_channels;
    uint8_t area_mute_flags;
    uint8_t track_attribute;
    scarletbook_timecode playtime;
    uint8_t track_offset;
    uint16_t track_count; /* 0 to 255 */
    uint32_t audio_start_lsn;
    uint32_t audio_end_lsn; /* inclusive */
    uint8_t text_channel_count;
    uint8_t locale_count;                                /* how many locales are listed */
    scarletbook_locale locales[SCARLETBOOK_MAX_LOCALES]; /* these, and zero past them */
    uint8_t text_charset;
    scarletbook_text_place text[SCARLETBOOK_AREA_TEXTS];
} scarletbook_area;

/* Where a table's sub-structures begin that the walk keeps; 0 for one that it did not meet. */
typedef struct scarletbook_chain {
    uint32_t ttxt; /* the first SACDTTxt */
    uint32_t igl;  /* the last SACD_IGL */
    uint32_t trl1; /* the last SACDTRL1 */
    uint32_t trl2; /* the last SACDTRL2 */
} scarletbook_chain;

/* The master record of a disc. */
typedef struct scarletbook_master_toc {
    scarletbook_version version;
    uint16_t album_set_size;
    uint16_t album_sequence_number;
    scarletbook_fixed_text_record album_catalog_number;
    scarletbook_fixed_text_record album_catalog_number_stored; /* the same, untrimmed */
    scarletbook_genre album_genres[SCARLETBOOK_GENRES];
    scarletbook_area_pointer two_channel;
    scarletbook_area_pointer multichannel;
    uint8_t disc_flags;
    scarletbook_fixed_text_record disc_catalog_number;
    scarletbook_fixed_text_record disc_catalog_number_stored; /* the same, untrimmed */
    scarletbook_genre disc_genres[SCARLETBOOK_GENRES];
    scarletbook_date date;
    uint8_t text_channel_count;
    uint8_t locale_count;                                 /* how many locales are listed */
    scarletbook_locale locales[SCARLETBOOK_MASTER_LOCALES]; /* these, and zero past them */
    uint8_t text_charset;
    scarletbook_text_place text[SCARLETBOOK_DISC_TEXTS]; /* places in sector 1 of the master table */
    uint8_t manufacturer; /* 1 if sector 9 of the master table is the manufacturer's */
} scarletbook_master_toc;

/* ---- Answers ---- */

/* The answer of scarletbook_compare_sectors. */
typedef struct scarletbook_comparison {
    uint8_t refusal;
    uint8_t equal; /* 1 when all bytes are equal; 0 with a refusal */
} scarletbook_comparison;

/* The answer of scarletbook_fingerprint. */
typedef struct scarletbook_fingerprint_answer {
    uint8_t refusal;
    uint64_t digest; /* 0 with a refusal */
} scarletbook_fingerprint_answer;

/* The answer of scarletbook_audit. */
typedef struct scarletbook_audit_answer {
    uint8_t refusal;
    uint8_t verdict; /* SCARLETBOOK_SOUND, SCARLETBOOK_BLANK or SCARLETBOOK_UNSOUND; 0 with a refusal */
} scarletbook_audit_answer;

/* The answer of scarletbook_mend. */
typedef struct scarletbook_mended {
    uint8_t refusal;
    uint8_t header[6]; /* all zero with a refusal; six zeros can be an answer too, so look at the refusal first */
} scarletbook_mended;

/* The answer of the decoding functions. */
typedef struct scarletbook_decode_answer {
    uint8_t refusal;
    size_t len; /* the bytes of the text at the start of the page; 0 for an absent text and with a refusal */
} scarletbook_decode_answer;

/* The answer of scarletbook_detect_format. */
typedef struct scarletbook_detect_answer {
    uint8_t refusal;
    uint32_t sector_format; /* 0 with a refusal */
} scarletbook_detect_answer;

/* The answer of scarletbook_cap. */
typedef struct scarletbook_cap_answer {
    uint32_t start_frame;
    uint32_t duration_frames;
    uint8_t past_playtime; /* 1 if the times went past the play time */
} scarletbook_cap_answer;

/* The answer of scarletbook_draw_at: an item, or none. */
typedef struct scarletbook_draw_answer {
    uint8_t found; /* 1 if there is an item; without one the next three are 0 */
    uint8_t kind;  /* its type byte */
    size_t place;  /* where its string begins in the table */
    size_t len;    /* the bytes of its string */
    size_t next;   /* where the next draw is from */
    size_t left;   /* how many items are left for it */
} scarletbook_draw_answer;

/* The answer of scarletbook_table_head. */
typedef struct scarletbook_table_head_record {
    uint8_t skip;          /* the code of the warning by which the table is skipped, or 0 */
    scarletbook_area area; /* all zero for a table that is skipped */
    scarletbook_chain chain;
} scarletbook_table_head_record;

/* The answer of scarletbook_read_table. */
typedef struct scarletbook_table_answer {
    uint8_t refusal;
    size_t warnings;       /* how many stand at the start of the words; 0 with a refusal other than 6 */
    scarletbook_area area; /* all zero with a refusal */
} scarletbook_table_answer;

/* The answer of scarletbook_read_disc. */
typedef struct scarletbook_disc_answer {
    uint8_t refusal;
    size_t warnings;               /* how many stand at the start of the words; 0 with a refusal other than 6 */
    uint32_t sector_format;        /* 0 with a refusal */
    size_t sectors;                /* the whole sectors of the image; 0 with a refusal */
    scarletbook_master_toc master; /* all zero with a refusal other than 6 */
    scarletbook_area two_channel;  /* slot 1; all zero without an area */
    scarletbook_area multichannel; /* slot 2; all zero without an area */
} scarletbook_disc_answer;

/* ---- Mappings: what the character sets 3 to 6 are decoded by ----
 *
 * Every call that decodes is lent a mapping, before the page: its words, and how many there are. One without any, NULL
 * and 0, is none. A mapping is, word by word,
 *
 *     a count of singles, then for each the byte and its value;
 *     a count of pairs, then for each the key, 256 times the first byte + the second, and its value;
 *     a count of doubles, then for each two code points.
 *
 * A value is a code point, or 2^31 + the place of a double, from 0. Keys rise strictly in each list. Words are no
 * mapping, and a text that needs them is refused 12, where a count is missing or beyond the words, words are left over,
 * a key does not rise or is above 255 (of a single) or 65,535 (of a pair), a place is beyond the doubles, or a code
 * point is a surrogate or above hexadecimal 10FFFF.
 *
 * A text is decoded from its first byte on: a byte and the next become the value of their pair if the mapping has it;
 * else, in set 3, U+FFFD if they are one of the ten reserved pairs of Shift JIS (hexadecimal 879F, 889E, 9873, 989E,
 * EAA5, EFF8 to EFFC); else the byte alone becomes its single's value, or U+FFFD without one. Code points below 32
 * become a blank.
 *
 * The words do not say of which set they are: lend those of set scarletbook_charset(record.text_charset). A text of
 * Latin-1, or an absent one, is never refused 9 or 12, whatever the words are: they are not looked at.
 *
 * Each call that decodes a text of set 3 to 6 that is there checks the whole mapping, since nothing that is lent is
 * trusted: about 0.25 ns a word, 3 microseconds for 7,000 pairs and 10 for 24,000.
 */

/* ---- Discs ---- */

/*
 * The format of an image: the first of SCARLETBOOK_PLAIN, _RAW2064 and _RAW2054 in which LSN 510 begins
 * SACDMTOC. Refused: 4 if there is none.
 */
scarletbook_detect_answer scarletbook_detect_format(const uint8_t *image, size_t image_len);

/*
 * Reads a disc: its master record and its areas.
 *
 * Writes the master table and each chosen table copy at the start of their regions of the work bytes, the
 * tracks of each area from its slot's first record on, the warnings at the start of the words; everything
 * else stays as it was. Refusal 6 writes these too, without tracks.
 *
 * Refused, in this order: 1; 2 for fewer than SCARLETBOOK_WORK_BYTES, _TRACK_RECORDS or _WARNING_WORDS; 3; 4;
 * 5; 6, which has the master record and the warnings.
 */
scarletbook_disc_answer scarletbook_read_disc(uint32_t format, const uint8_t *image, size_t image_len,
                                              uint8_t *work, size_t work_len, scarletbook_track *tracks,
                                              size_t tracks_len, uint32_t *words, size_t words_len);

/*
 * The three below decode a text, by its item, after disc reading. The text is UTF-8, without a zero at its
 * end, at the start of the page; the rest of the page stays. An absent text has length 0. A text of set 3 to 6
 * is decoded by the mapping.
 *
 * Refused, in this order: 2 for fewer than SCARLETBOOK_WORK_BYTES (and, for tracks, _TRACK_RECORDS); 8 for no
 * such item, area or track; 9 for a text of set 3 to 6 without a word of a mapping; 12 for one with words that are
 * no mapping; 10.
 */

/* Decodes a text of the disc. */
scarletbook_decode_answer scarletbook_decode_disc_text(const uint8_t *work, size_t work_len,
                                                       scarletbook_master_toc master, uint32_t item,
                                                       const uint32_t *mapping, size_t mapping_len,
                                                       uint8_t *page, size_t page_len);

/* Decodes a text of an area. */
scarletbook_decode_answer scarletbook_decode_disc_area_text(const uint8_t *work, size_t work_len,
                                                            scarletbook_area area, uint32_t item,
                                                            const uint32_t *mapping, size_t mapping_len,
                                                            uint8_t *page, size_t page_len);

/* Decodes a text of a track, by its number from 1; `tracks` are all the records of the reading. */
scarletbook_decode_answer scarletbook_decode_disc_track_text(const uint8_t *work, size_t work_len,
                                                             scarletbook_area area,
                                                             const scarletbook_track *tracks,
                                                             size_t tracks_len, uint32_t number, uint32_t item,
                                                             const uint32_t *mapping, size_t mapping_len,
                                                             uint8_t *page, size_t page_len);

/* ---- Lone tables: an area's table without a disc ---- */

/*
 * Reads a lone table, as slot 1 with address 0: its area's record.
 *
 * Writes its tracks at the start of the records, its warnings at the start of the words; everything else stays
 * as it was. Refusal 6 writes its warning.
 *
 * Refused, in this order: 7; 2 for fewer than SCARLETBOOK_MAX_TRACKS or _TABLE_WORDS; 6.
 */
scarletbook_table_answer scarletbook_read_table(const uint8_t *table, size_t table_len,
                                                scarletbook_track *tracks, size_t tracks_len, uint32_t *words,
                                                size_t words_len);

/*
 * The two below decode a text of a lone table, by its item, as those of discs do.
 *
 * Refused, in this order: 2 for a table shorter than the record's sectors (above 128 as 128), or, for tracks,
 * fewer than SCARLETBOOK_MAX_TRACKS; 8 for no such item, area or track; 9 for a text of set 3 to 6 without a word of
 * a mapping; 12 for one with words that are no mapping; 10.
 */

/* Decodes a text of an area. */
scarletbook_decode_answer scarletbook_decode_area_text(const uint8_t *table, size_t table_len,
                                                       scarletbook_area area, uint32_t item,
                                                       const uint32_t *mapping, size_t mapping_len,
                                                       uint8_t *page, size_t page_len);

/* Decodes a text of a track, by its number from 1. */
scarletbook_decode_answer scarletbook_decode_track_text(const uint8_t *table, size_t table_len,
                                                        scarletbook_area area, const scarletbook_track *tracks,
                                                        size_t tracks_len, uint32_t number, uint32_t item,
                                                        const uint32_t *mapping, size_t mapping_len,
                                                        uint8_t *page, size_t page_len);

/*
 * Reads the head of a table of so many sectors (above 128 as 128) at the start of what is lent: the area's
 * record, with this slot, address and sector count, and where its sub-structures begin. Never refused.
 */
scarletbook_table_head_record scarletbook_table_head(const uint8_t *table, size_t table_len, uint8_t slot,
                                                     uint32_t lsn, uint16_t sectors);

/*
 * Draws the next item of a track's text, from a place of the table on, of so many that are left, empty and
 * unknown ones included. Each draw goes on with `next` and `left` of the one before. How an item's string ended
 * is what scarletbook_string_end says of its `place`. Never refused.
 */
scarletbook_draw_answer scarletbook_draw_at(const uint8_t *table, size_t table_len, size_t next, size_t left);

/* ---- Sectors ---- */

/* The whole sectors in so many bytes; 0 for a foreign format. */
size_t scarletbook_sector_count(uint32_t format, size_t bytes);

/* Whether the `count` sectors from `lsn` on are all in an image of so many bytes. */
bool scarletbook_contains(uint32_t format, size_t bytes, uint32_t lsn, size_t count);

/*
 * Copies the data bytes of the `count` sectors from `lsn` on into `buf`, from `at` on, and answers 0.
 * Refused, in this order: 1; 2 when they do not fit; 8 when the sectors are not all in the image.
 */
uint8_t scarletbook_read_sectors(uint32_t format, const uint8_t *image, size_t image_len, uint32_t lsn,
                                 size_t count, uint8_t *buf, size_t buf_len, size_t at);

/*
 * Whether the data bytes of the `count` sectors from `lsn` on are what `bytes` begins with.
 * Refused, in this order: 1; 2 when `bytes` are fewer; 8 when the sectors are not all in the image.
 */
scarletbook_comparison scarletbook_compare_sectors(uint32_t format, const uint8_t *image, size_t image_len,
                                                   uint32_t lsn, size_t count, const uint8_t *bytes,
                                                   size_t bytes_len);

/* Whether the header of a sector is sound (ECMA-267), blank or unsound. Refused, in this order: 1; 11; 8. */
scarletbook_audit_answer scarletbook_audit(uint32_t format, const uint8_t *image, size_t image_len,
                                           uint32_t lsn);

/*
 * Mends the header of a sector: answers the one correct header, a multiple of (x + 1)(x + alpha) (ECMA-267), that
 * differs from it in at most one place. A blank header counts as correct here. A correct header comes back as it
 * is, and a correct one with one byte changed always comes back as it was. The image is never written.
 *
 * The answer is the nearest correct header, and no proof of what was written: a header with two or more bad bytes
 * can lie one place from another correct one, and then comes back as that one. Of six random bytes, 1,531 in
 * 65,536 mend (2.3 %).
 *
 * Refused, in this order: 1; 11; 8; 14 exactly when there is no such header.
 */
scarletbook_mended scarletbook_mend(uint32_t format, const uint8_t *image, size_t image_len, uint32_t lsn);

/*
 * Gathers an image of format 2 for a tape store. Of its whole sectors `out` gets all heads (12 bytes each), then all
 * data (2,048), then all tails (4), each in the sectors' order; the rest of the image, shorter than a sector, stays in
 * its place. Any bytes are such an image, of any length. Answers 0, with all of `out` written.
 *
 * Refused: 20 if `out` is not as long as the image; then nothing is written.
 */
uint8_t scarletbook_gather_sectors(const uint8_t *image, size_t image_len, uint8_t *out, size_t out_len);

/*
 * The way back: writes the image whose gathered bytes these are. Any bytes are, of just one image, so each of the two
 * undoes the other. Answers 0, with all of `out` written.
 *
 * Refused: 20 if `out` is not as long as the bytes; then nothing is written.
 */
uint8_t scarletbook_scatter_sectors(const uint8_t *bytes, size_t bytes_len, uint8_t *out, size_t out_len);

/* The fingerprint of a sector: FNV-1a, 64 bits, of its data bytes. Refused, in this order: 1; 8. */
scarletbook_fingerprint_answer scarletbook_fingerprint(uint32_t format, const uint8_t *image,
                                                       size_t image_len, uint32_t lsn);

/* FNV-1a, 64 bits, of any bytes. */
uint64_t scarletbook_digest(const uint8_t *bytes, size_t bytes_len);

/* The low 64 bits of a product. */
uint64_t scarletbook_wrapping_mul(uint64_t a, uint64_t b);

/* ---- Parts of tables ---- */

/* The byte at a place; 0 past the end. */
uint8_t scarletbook_byte_at(const uint8_t *table, size_t table_len, size_t at);

/* The big-endian number of two bytes from a place on; each byte past the end is 0. */
uint16_t scarletbook_be16_at(const uint8_t *table, size_t table_len, size_t at);

/* The big-endian number of four bytes from a place on; each byte past the end is 0. */
uint32_t scarletbook_be32_at(const uint8_t *table, size_t table_len, size_t at);

/*
 * How many bytes the string at a place has: it ends before the first zero byte, after 4,096 bytes or at the
 * table's end.
 */
size_t scarletbook_string_length(const uint8_t *table, size_t table_len, size_t place);

/*
 * How the string at a place ended: SCARLETBOOK_ENDED_BY_MAX_BYTES if it has 4,096 bytes, whatever stands behind
 * them, else .._BY_ZERO_BYTE or .._BY_TABLE_END. The latter at the table's end and past it too.
 */
uint8_t scarletbook_string_end(const uint8_t *table, size_t table_len, size_t place);

/* The set that a code names: 3 to 6, or 0 for Latin-1. */
uint8_t scarletbook_charset(uint8_t code);

/*
 * Decodes a string's bytes, of the set that a code names, to UTF-8 at the start of a page, those of set 3 to 6 by the
 * mapping; code points below 32 become a blank. No bytes give length 0 in every set.
 *
 * Refused, in this order: 9 for bytes of set 3 to 6 without a word of a mapping; 12 for such bytes with words that are
 * no mapping; 10.
 */
scarletbook_decode_answer scarletbook_decode(const uint8_t *bytes, size_t bytes_len, uint8_t code,
                                             const uint32_t *mapping, size_t mapping_len, uint8_t *page,
                                             size_t page_len);

/* The bytes of a field up to the first zero byte; of a field longer than 16 bytes the first 16 count. */
scarletbook_fixed_text_record scarletbook_fixed_bytes(const uint8_t *field, size_t field_len);

/* The same, without the white space at both ends: hexadecimal 09-0D, 1C-20, 85, A0. */
scarletbook_fixed_text_record scarletbook_fixed_text(const uint8_t *field, size_t field_len);

/* The language that two characters name: without the zeros and blanks at their end. */
scarletbook_language_code scarletbook_language(uint8_t first, uint8_t second);

/* The frame number of a timecode: (minutes times 60 + seconds) times 75 + frames. */
uint32_t scarletbook_frame_number(scarletbook_timecode time);

/* A track's start and duration: as they are if they end within the play time, else capped at it. */
scarletbook_cap_answer scarletbook_cap(uint32_t start, uint32_t duration, uint32_t playtime);

#ifdef __cplusplus
}
#endif

#endif
