/*
 * Lists the tracks of an SACD image: slot, number and title of each, then how many warnings there are.
 *
 *     cc -Iinclude host/c/example.c host/target/archive/libscarletbook.a -o example
 *     ./example IMAGE
 *
 * Exit status: 0 accepted, 1 refused, 2 if the file cannot be read.
 */
#include "scarletbook.h"

#include <fcntl.h>
#include <stdio.h>
#include <sys/mman.h>
#include <sys/stat.h>

static uint8_t work[SCARLETBOOK_WORK_BYTES];
static scarletbook_track tracks[SCARLETBOOK_TRACK_RECORDS];
static uint32_t words[SCARLETBOOK_WARNING_WORDS];
static uint8_t page[SCARLETBOOK_PAGE_BYTES];

static int refused(uint8_t refusal)
{
    fprintf(stderr, "refused %u: %s\n", refusal, scarletbook_refusal_word(refusal));
    return 1;
}

/*
 * Prints the tracks of an area, none for a slot without one; in place of a title that is refused, why. No mapping is
 * lent, so one of set 3 to 6 is.
 */
static void list(scarletbook_area area)
{
    for (uint32_t number = 1; number <= area.track_count; number++) {
        scarletbook_decode_answer title =
            scarletbook_decode_disc_track_text(work, sizeof work, area, tracks, SCARLETBOOK_TRACK_RECORDS, number,
                                               SCARLETBOOK_TRACK_TITLE, NULL, 0, page, sizeof page);
        printf("%u.%u %.*s%s\n", area.origin.slot, number, (int)title.len, (const char *)page,
               scarletbook_refusal_word(title.refusal));
    }
}

static int read_image(const uint8_t *image, size_t size)
{
    scarletbook_detect_answer format = scarletbook_detect_format(image, size);
    if (format.refusal != 0)
        return refused(format.refusal);
    scarletbook_disc_answer disc =
        scarletbook_read_disc(format.sector_format, image, size, work, sizeof work, tracks,
                              SCARLETBOOK_TRACK_RECORDS, words, SCARLETBOOK_WARNING_WORDS);
    if (disc.refusal != 0)
        return refused(disc.refusal);
    list(disc.two_channel);
    list(disc.multichannel);
    printf("%lu warnings\n", (unsigned long)disc.warnings);
    return 0;
}

int main(int argc, char **argv)
{
    struct stat status;
    int file = argc == 2 ? open(argv[1], O_RDONLY) : -1;
    if (argc != 2) {
        fprintf(stderr, "usage: example IMAGE\n");
        return 2;
    }
    if (file < 0 || fstat(file, &status) != 0) {
        perror(argv[1]);
        return 2;
    }
    size_t size = (size_t)status.st_size;
    if (size == 0)
        return read_image(NULL, 0);
    void *image = mmap(NULL, size, PROT_READ, MAP_PRIVATE, file, 0);
    if (image == MAP_FAILED) {
        perror(argv[1]);
        return 2;
    }
    return read_image((const uint8_t *)image, size);
}
