/*
 * The two calls of the tape store, with the fault that the environment names in FAULT, for host/faults. They stand in
 * place of the library's own, which are called right_gather and right_scatter there.
 */
#include "scarletbook.h"

#include <stdlib.h>
#include <string.h>

#define STORED 2064

uint8_t right_gather(const uint8_t *image, size_t image_len, uint8_t *out, size_t out_len);
uint8_t right_scatter(const uint8_t *bytes, size_t bytes_len, uint8_t *out, size_t out_len);

static int fault(const char *words)
{
    const char *planted = getenv("FAULT");
    return planted != NULL && strcmp(planted, words) == 0;
}

/* Gathers with heads of any size, and data and tails from any place on, in bytes for each sector. */
static void gather_by(const uint8_t *image, size_t sectors, uint8_t *out, size_t head, size_t data_at, size_t tail_at)
{
    size_t sector, data = 2060 - head;
    for (sector = 0; sector < sectors; sector++, image += STORED) {
        memcpy(out + sector * head, image, head);
        memcpy(out + sectors * data_at + sector * data, image + head, data);
        memcpy(out + sectors * tail_at + sector * 4, image + 2060, 4);
    }
}

static void swap_heads(uint8_t *first, uint8_t *second)
{
    uint8_t head[12];
    memcpy(head, first, 12);
    memcpy(first, second, 12);
    memcpy(second, head, 12);
}

/* Changes what was gathered. */
static void spoil(const uint8_t *image, size_t size, uint8_t *out)
{
    size_t sectors = size / STORED, few = sectors % 256 * STORED;
    if (fault("tails before data"))
        gather_by(image, sectors, out, 12, 16, 12);
    if (fault("heads of 16 bytes"))
        gather_by(image, sectors, out, 16, 16, 2060);
    if (fault("two heads swapped") && sectors >= 2)
        swap_heads(out, out + 12 * sectors - 12);
    if (fault("sectors counted in a byte")) {
        right_gather(image, few, out, few);
        memcpy(out + few, image + few, size - few);
    }
    if (fault("a byte behind the buffer"))
        out[size] ^= 1;
    if (fault("a byte of the image") && size > 0)
        ((uint8_t *)(uintptr_t)image)[size - 1] ^= 1;
}

uint8_t scarletbook_gather_sectors(const uint8_t *image, size_t image_len, uint8_t *out, size_t out_len)
{
    size_t whole = image_len / STORED * STORED;
    if (image_len != out_len) {
        if (fault("a refusal that writes") && out_len > 0)
            out[out_len - 1] ^= 1;
        if (fault("a shorter buffer accepted") && out_len < image_len)
            return 0;
        return fault("another refusal") ? SCARLETBOOK_SHORT_BUFFER : SCARLETBOOK_UNEQUAL_LENGTHS;
    }
    if (fault("the rest left out"))
        return right_gather(image, whole, out, whole);
    right_gather(image, image_len, out, out_len);
    spoil(image, image_len, out);
    return 0;
}

uint8_t scarletbook_scatter_sectors(const uint8_t *bytes, size_t bytes_len, uint8_t *out, size_t out_len)
{
    size_t whole = bytes_len / STORED * STORED;
    if (bytes_len != out_len) {
        if (fault("back, a refusal that writes") && out_len > 0)
            out[0] ^= 1;
        return fault("back, a longer buffer accepted") && out_len > bytes_len ? 0 : SCARLETBOOK_UNEQUAL_LENGTHS;
    }
    if (fault("back, the rest left out"))
        return right_scatter(bytes, whole, out, whole);
    if (fault("back, gathered again"))
        return right_gather(bytes, bytes_len, out, out_len);
    return right_scatter(bytes, bytes_len, out, out_len);
}
