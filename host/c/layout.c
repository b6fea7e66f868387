/*
 * Prints `record field offset size` for every field of every record of scarletbook.h, `-` standing for the
 * whole record, to be compared with those of the Rust crate. A field of another type does not compile.
 */
#include "scarletbook.h"

#include <stdio.h>

static void line(const char *record, const char *field, size_t offset, size_t size)
{
    printf("%s %s %lu %lu\n", record, field, (unsigned long)offset, (unsigned long)size);
}

/* The first line of a record `r`; its fields; and those that are arrays. */
#define RECORD(name, type)      \
    static type r;              \
    const char *record = #name; \
    line(record, "-", 0, sizeof r)

#define PLACE(type, field, at)                                                        \
    do {                                                                              \
        const type *place = at;                                                       \
        line(record, #field, (const char *)place - (const char *)&r, sizeof r.field); \
    } while (0)

#define FIELD(type, field) PLACE(type, field, &r.field)
#define ARRAY(type, field) PLACE(type, field, r.field)

static void print_fixed_text(void)
{
    RECORD(fixed_text, scarletbook_fixed_text_record);
    ARRAY(uint8_t, bytes);
    FIELD(uint8_t, len);
}

static void print_language_code(void)
{
    RECORD(language_code, scarletbook_language_code);
    ARRAY(uint8_t, bytes);
    FIELD(uint8_t, len);
}

static void print_locale(void)
{
    RECORD(locale, scarletbook_locale);
    FIELD(scarletbook_language_code, language);
    ARRAY(uint8_t, language_code);
    FIELD(uint8_t, charset);
}

static void print_timecode(void)
{
    RECORD(timecode, scarletbook_timecode);
    FIELD(uint8_t, minutes);
    FIELD(uint8_t, seconds);
    FIELD(uint8_t, frames);
}

static void print_genre(void)
{
    RECORD(genre, scarletbook_genre);
    FIELD(uint8_t, category);
    FIELD(uint8_t, index);
}

static void print_version(void)
{
    RECORD(version, scarletbook_version);
    FIELD(uint8_t, major);
    FIELD(uint8_t, minor);
}

static void print_date(void)
{
    RECORD(date, scarletbook_date);
    FIELD(uint16_t, year);
    FIELD(uint8_t, month);
    FIELD(uint8_t, day);
}

static void print_area_pointer(void)
{
    RECORD(area_pointer, scarletbook_area_pointer);
    FIELD(uint32_t, toc1_lsn);
    FIELD(uint32_t, toc2_lsn);
    FIELD(uint16_t, toc_sectors);
}

static void print_table_origin(void)
{
    RECORD(table_origin, scarletbook_table_origin);
    FIELD(uint8_t, slot);
    FIELD(uint32_t, toc_lsn);
    FIELD(uint16_t, toc_sectors);
}

static void print_track_times(void)
{
    RECORD(track_times, scarletbook_track_times);
    FIELD(uint32_t, start_frame);
    FIELD(uint32_t, duration_frames);
    FIELD(scarletbook_timecode, stored_start);
    FIELD(scarletbook_timecode, stored_duration);
}

static void print_text_place(void)
{
    RECORD(text_place, scarletbook_text_place);
    FIELD(uint32_t, place);
    FIELD(uint8_t, end);
}

static void print_comparison(void)
{
    RECORD(comparison, scarletbook_comparison);
    FIELD(uint8_t, refusal);
    FIELD(uint8_t, equal);
}

static void print_fingerprint_answer(void)
{
    RECORD(fingerprint_answer, scarletbook_fingerprint_answer);
    FIELD(uint8_t, refusal);
    FIELD(uint64_t, digest);
}

static void print_audit_answer(void)
{
    RECORD(audit_answer, scarletbook_audit_answer);
    FIELD(uint8_t, refusal);
    FIELD(uint8_t, verdict);
}

static void print_mended(void)
{
    RECORD(mended, scarletbook_mended);
    FIELD(uint8_t, refusal);
    ARRAY(uint8_t, header);
}

static void print_decode_answer(void)
{
    RECORD(decode_answer, scarletbook_decode_answer);
    FIELD(uint8_t, refusal);
    FIELD(size_t, len);
}

static void print_detect_answer(void)
{
    RECORD(detect_answer, scarletbook_detect_answer);
    FIELD(uint8_t, refusal);
    FIELD(uint32_t, sector_format);
}

static void print_cap_answer(void)
{
    RECORD(cap_answer, scarletbook_cap_answer);
    FIELD(uint32_t, start_frame);
    FIELD(uint32_t, duration_frames);
    FIELD(uint8_t, past_playtime);
}

static void print_draw_answer(void)
{
    RECORD(draw_answer, scarletbook_draw_answer);
    FIELD(uint8_t, found);
    FIELD(uint8_t, kind);
    FIELD(size_t, place);
    FIELD(size_t, len);
    FIELD(size_t, next);
    FIELD(size_t, left);
}

static void print_chain(void)
{
    RECORD(chain, scarletbook_chain);
    FIELD(uint32_t, ttxt);
    FIELD(uint32_t, igl);
    FIELD(uint32_t, trl1);
    FIELD(uint32_t, trl2);
}

static void print_track(void)
{
    RECORD(track, scarletbook_track);
    FIELD(uint8_t, number);
    FIELD(uint32_t, start_lsn);
    FIELD(uint32_t, length_sectors);
    FIELD(scarletbook_track_times, times);
    FIELD(uint8_t, start_flags);
    FIELD(uint8_t, duration_flags);
    FIELD(uint8_t, has_isrc);
    FIELD(scarletbook_fixed_text_record, isrc);
    FIELD(uint8_t, has_genre);
    FIELD(scarletbook_genre, genre);
    ARRAY(scarletbook_text_place, text);
}

static void print_area(void)
{
    RECORD(area, scarletbook_area);
    FIELD(uint8_t, present);
    FIELD(scarletbook_table_origin, origin);
    FIELD(uint8_t, kind);
    FIELD(scarletbook_version, version);
    FIELD(uint32_t, max_byte_rate);
    FIELD(uint8_t, sample_frequency_code);
    FIELD(uint8_t, frame_format);
    FIELD(uint8_t, channel_count);
    FIELD(uint8_t, area_config);
    FIELD(uint8_t, max_available_channels);
    FIELD(uint8_t, area_mute_flags);
    FIELD(uint8_t, track_attribute);
    FIELD(scarletbook_timecode, playtime);
    FIELD(uint8_t, track_offset);
    FIELD(uint16_t, track_count);
    FIELD(uint32_t, audio_start_lsn);
    FIELD(uint32_t, audio_end_lsn);
    FIELD(uint8_t, text_channel_count);
    FIELD(uint8_t, locale_count);
    ARRAY(scarletbook_locale, locales);
    FIELD(uint8_t, text_charset);
    ARRAY(scarletbook_text_place, text);
}

static void print_table_head(void)
{
    RECORD(table_head, scarletbook_table_head_record);
    FIELD(uint8_t, skip);
    FIELD(scarletbook_area, area);
    FIELD(scarletbook_chain, chain);
}

static void print_table_answer(void)
{
    RECORD(table_answer, scarletbook_table_answer);
    FIELD(uint8_t, refusal);
    FIELD(size_t, warnings);
    FIELD(scarletbook_area, area);
}

static void print_master_toc(void)
{
    RECORD(master_toc, scarletbook_master_toc);
    FIELD(scarletbook_version, version);
    FIELD(uint16_t, album_set_size);
    FIELD(uint16_t, album_sequence_number);
    FIELD(scarletbook_fixed_text_record, album_catalog_number);
    FIELD(scarletbook_fixed_text_record, album_catalog_number_stored);
    ARRAY(scarletbook_genre, album_genres);
    FIELD(scarletbook_area_pointer, two_channel);
    FIELD(scarletbook_area_pointer, multichannel);
    FIELD(uint8_t, disc_flags);
    FIELD(scarletbook_fixed_text_record, disc_catalog_number);
    FIELD(scarletbook_fixed_text_record, disc_catalog_number_stored);
    ARRAY(scarletbook_genre, disc_genres);
    FIELD(scarletbook_date, date);
    FIELD(uint8_t, text_channel_count);
    FIELD(uint8_t, locale_count);
    ARRAY(scarletbook_locale, locales);
    FIELD(uint8_t, text_charset);
    ARRAY(scarletbook_text_place, text);
    FIELD(uint8_t, manufacturer);
}

static void print_disc_answer(void)
{
    RECORD(disc_answer, scarletbook_disc_answer);
    FIELD(uint8_t, refusal);
    FIELD(size_t, warnings);
    FIELD(uint32_t, sector_format);
    FIELD(size_t, sectors);
    FIELD(scarletbook_master_toc, master);
    FIELD(scarletbook_area, two_channel);
    FIELD(scarletbook_area, multichannel);
}

int main(void)
{
    print_fixed_text();
    print_language_code();
    print_locale();
    print_timecode();
    print_genre();
    print_version();
    print_date();
    print_area_pointer();
    print_table_origin();
    print_track_times();
    print_text_place();
    print_comparison();
    print_fingerprint_answer();
    print_audit_answer();
    print_mended();
    print_decode_answer();
    print_detect_answer();
    print_cap_answer();
    print_draw_answer();
    print_chain();
    print_track();
    print_area();
    print_table_head();
    print_table_answer();
    print_master_toc();
    print_disc_answer();
    return 0;
}
