/*
 * Compares the audit with that of an earlier library, linked beside it: both must give the same refusal and the
 * same verdict of every header. Prints the cases of each class, those of each answer, and the differences; the
 * first one is shown. Exit status: 0 no differences; 1 some; 2 an answer that never came.
 */
#include "scarletbook.h"

#include <stdio.h>
#include <string.h>

#define STORED 2064
#define HEADER 6
#define SECTORS 4
/* Correct headers with all changes of one byte, other correct ones, and random ones. */
#define CHANGED 1000
#define OTHERS 500000

/* scarletbook_audit of the earlier library (host/as-before renames it). */
scarletbook_audit_answer before_audit(uint32_t format, const uint8_t *image, size_t image_len, uint32_t lsn);

static uint8_t image[SECTORS * STORED];
static unsigned long cases, differences, refusals[256], verdicts[256];

static void show(uint32_t format, size_t image_len, size_t lsn)
{
    size_t i;

    printf("format %lu, %lu bytes, sector %lu", (unsigned long)format, (unsigned long)image_len, (unsigned long)lsn);
    if (lsn < image_len / STORED) {
        printf(", header ");
        for (i = 0; i < HEADER; i++)
            printf("%02x", image[lsn * STORED + i]);
    }
    printf(": ");
}

static void audit(uint32_t format, size_t image_len, uint32_t lsn)
{
    scarletbook_audit_answer now = scarletbook_audit(format, image, image_len, lsn);
    scarletbook_audit_answer before = before_audit(format, image, image_len, lsn);

    cases++;
    refusals[now.refusal]++;
    verdicts[now.verdict]++;
    if ((now.refusal != before.refusal || now.verdict != before.verdict) && differences++ == 0) {
        show(format, image_len, lsn);
        printf("refusal %u and verdict %u, before %u and %u\n", now.refusal, now.verdict, before.refusal,
               before.verdict);
    }
}

/* Each header in the next sector: the others keep theirs. */
static void audit_header(const uint8_t *header)
{
    uint32_t lsn = (uint32_t)(cases % SECTORS);

    memcpy(image + lsn * STORED, header, HEADER);
    audit(SCARLETBOOK_RAW2064, sizeof image, lsn);
}

static uint64_t state = 1;

static void fill(uint8_t *bytes, size_t count)
{
    while (count-- > 0) {
        state = state * 6364136223846793005u + 1442695040888963407u;
        bytes[count] = (uint8_t)(state >> 56);
    }
}

static uint8_t doubled(uint8_t byte)
{
    return (uint8_t)(byte << 1 ^ (byte >> 7) * 0x1d);
}

/* The ID's remainder by (x + 1)(x + 2) = x^2 + 3x + 2, two zeros behind it, is the IED. */
static void make_correct(uint8_t *header)
{
    uint8_t rest[HEADER] = {0};
    int i;

    fill(header, 4);
    memcpy(rest, header, 4);
    for (i = 0; i < 4; i++) {
        rest[i + 1] ^= doubled(rest[i]) ^ rest[i];
        rest[i + 2] ^= doubled(rest[i]);
    }
    memcpy(header + 4, rest + 4, 2);
}

/* Every header that has another byte at one place. */
static void audit_changes(const uint8_t *header)
{
    uint8_t changed[HEADER];
    int at, change;

    for (at = 0; at < HEADER; at++) {
        memcpy(changed, header, HEADER);
        for (change = 1; change < 256; change++) {
            changed[at] = (uint8_t)(header[at] ^ change);
            audit_header(changed);
        }
    }
}

/* Foreign formats, formats without headers, sectors that are not there. */
static void audit_refused(void)
{
    static const uint32_t formats[] = {0, 1, 3, 4, UINT32_MAX}, sectors[] = {0, SECTORS, UINT32_MAX};
    size_t i, j;

    for (i = 0; i < 5; i++)
        for (j = 0; j < 3; j++)
            audit(formats[i], sizeof image, sectors[j]);
    for (j = 0; j < 3; j++) {
        audit(SCARLETBOOK_RAW2064, 0, sectors[j]);
        audit(SCARLETBOOK_RAW2064, STORED - 1, sectors[j]);
    }
}

static void print_class(const char *name)
{
    static unsigned long printed;

    printf("%10lu  %s\n", cases - printed, name);
    printed = cases;
}

static int report(void)
{
    unsigned long sound = verdicts[SCARLETBOOK_SOUND], blank = verdicts[SCARLETBOOK_BLANK];
    unsigned long unsound = verdicts[SCARLETBOOK_UNSOUND], foreign = refusals[SCARLETBOOK_FOREIGN_FORMAT];
    unsigned long no_header = refusals[SCARLETBOOK_NO_HEADER], no_entry = refusals[SCARLETBOOK_NO_SUCH_ENTRY];

    printf("%lu sound, %lu blank, %lu unsound; %lu refused 1, %lu refused 11, %lu refused 8\n", sound, blank, unsound,
           foreign, no_header, no_entry);
    printf("as-before: %lu audits, %lu differences\n", cases, differences);
    if (differences > 0)
        return 1;
    return sound && blank && unsound && foreign && no_header && no_entry ? 0 : 2;
}

int main(void)
{
    uint8_t header[HEADER] = {0};
    int i;

    fill(image, sizeof image);
    audit_header(header);
    print_class("six zeros");
    audit_changes(header);
    print_class("one byte changed in zeros");
    for (i = 0; i < CHANGED; i++) {
        make_correct(header);
        audit_changes(header);
    }
    print_class("one byte changed");
    for (i = 0; i < OTHERS; i++) {
        make_correct(header);
        audit_header(header);
    }
    print_class("correct");
    for (i = 0; i < OTHERS; i++) {
        fill(header, HEADER);
        audit_header(header);
    }
    print_class("random");
    audit_refused();
    print_class("refused");
    return report();
}
