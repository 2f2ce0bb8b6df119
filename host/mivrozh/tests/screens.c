/*
 * The two screens from C: what they show of a drive, zeros where they are refused, and that they write their arrays and nothing
 * beside them.
 */
#include <mivrozh.h>

#include <stdio.h>
#include <stdlib.h>
#include <string.h>

enum { KEY = 32, STRIPES = 16, COUNT = 1003, IMAGE = 2048 * 512, RANDOM = (STRIPES - 1) * KEY, LIST = 3 * 516, JUNK = 0xA5 };

static const uint8_t UUID[] = "6a2b1f0e-3c4d-4e5f-8a9b-0c1d2e3f4a5b";
static uint8_t image[IMAGE], before[IMAGE], key[KEY], salt[32], random_bytes[RANDOM], list[LIST];
static uint64_t values;

/* The arrays of both screens, with junk around each. */
struct lent {
    uint8_t edge1[8], first[8], edge2[8], enabled[8], edge3[8];
    uint32_t edge4[8], counts[8], edge5[8], starts[8], edge6[8], stripes[8], edge7[8];
};

static void must(int holds, const char *what) {
    if (holds) return;
    fprintf(stderr, "not as expected: %s\n", what);
    exit(1);
}

/* Both screens of so many bytes of the image must give this number and these entries. */
static void expect(size_t length, unsigned number, const struct lent *entries) {
    struct lent lent, expected;
    memset(&lent, JUNK, sizeof lent);
    memset(&expected, JUNK, sizeof expected);
    memcpy(expected.first, entries->enabled, 8);
    memcpy(expected.enabled, entries->enabled, 8);
    memcpy(expected.counts, entries->counts, 32);
    memcpy(expected.starts, entries->starts, 32);
    memcpy(expected.stripes, entries->stripes, 32);
    memcpy(before, image, IMAGE);
    must(mivrozh_slots(image, length, lent.first) == number, "the first screen's number");
    must(mivrozh_slot_details(image, length, lent.enabled, lent.counts, lent.starts, lent.stripes) == number, "the second's");
    must(memcmp(&lent, &expected, sizeof lent) == 0, "the arrays, and what is around them");
    must(memcmp(image, before, IMAGE) == 0, "the image");
    printf("%zu bytes: %u\n", length, number);
}

int main(void) {
    struct lent entries, zeros;
    memset(&entries, 0, sizeof entries);
    memset(&zeros, 0, sizeof zeros);
    memset(key, 5, KEY);
    must(mivrozh_format(image, IMAGE, 1, STRIPES, key, KEY, salt, COUNT, UUID, 36, &values) == 0, "format");
    for (unsigned at = 0; at < 8; at++) entries.starts[at] = 8 * (at + 1), entries.stripes[at] = STRIPES;
    expect(IMAGE, 0, &entries);
    for (unsigned slot = 3; slot <= 8; slot += 5) {
        must(mivrozh_add(image, IMAGE, (uint8_t)slot, key, KEY, key, KEY, salt, COUNT, random_bytes, RANDOM, list, LIST, &values) == 0, "add");
        entries.enabled[slot - 1] = 1, entries.counts[slot - 1] = COUNT;
        expect(IMAGE, 0, &entries);
    }
    /* A count in a disabled slot, as another tool may leave one. */
    image[208 + 48 * 6 + 7] = 9, entries.counts[6] = 9;
    expect(IMAGE, 0, &entries);
    expect(0, 1, &zeros);
    expect(IMAGE - 1, 1, &zeros);
    expect(IMAGE - 512, 6, &zeros);
    image[0] ^= 1;
    expect(IMAGE, 2, &zeros);
    puts("all as expected");
    return 0;
}
