/*
 * The life of a drive from C: made, given two passphrases, opened, written, read, changed and revoked, in memory. In between
 * it shows which slots are enabled. What add, change and revoke do goes to a second memory, which stands for a disk, by their
 * lists of sector writes alone. Every result is checked, and some refusals too, and after each call how many HMAC values it made.
 * What is secret is wiped on every way out, and the stack after every call that had a key.
 */
#define _DEFAULT_SOURCE
#include <mivrozh.h>

#include <stdio.h>
#include <stdlib.h>
#include <string.h>
#include <sys/random.h>

/* Profile 2: hash sha1 and a key of 64 bytes. Profile 4 is the same with sha256. */
enum { PROFILE = 2, KEY = 64, STRIPES = 4000, COUNT = 1000, UNITS = 8, PAYLOAD = UNITS * 512, PAYLOAD_START = 4096 };
enum { IMAGE = (PAYLOAD_START + UNITS) * 512, RANDOM = (STRIPES - 1) * KEY, FILLER = STRIPES * KEY };
/* A write of a list: the sector's number and its bytes. The list of one slot has its area and two sectors of the header. */
enum { ENTRY = 4 + 512, LIST = ENTRY * ((FILLER + 511) / 512 + 2) };
/*
 * HMAC values, as mivrozh.h says under COST: of a key's checksum, of a slot's key, which is four blocks of sha1, and of a trial of
 * a slot. Checksum and slots have the same count here.
 */
enum { CHECKSUM = COUNT, DERIVATION = 4 * COUNT, TRIAL = DERIVATION + CHECKSUM };

/* For the show these stand in the program. In earnest a passphrase is read into memory that is wiped. */
static const char FIRST[] = "the first passphrase", SECOND[] = "the second one", THIRD[] = "a third";
static const char UUID[] = "6a2b1f0e-3c4d-4e5f-8a9b-0c1d2e3f4a5b";

/* Every buffer has memory of its own, exactly as long as it must be, and is wiped on every way out. */
static struct {
    uint8_t *bytes;
    size_t length;
} buffers[10];
static size_t made;
/* How many HMAC values the last call made. */
static uint64_t values;
static uint8_t *image, *key, *opened, *salt, *stripes, *filler, *list, *disk, *plain, *back;

static uint8_t *buffer(size_t length) {
    uint8_t *bytes = calloc(length, 1);
    if (!bytes) {
        perror("calloc");
        exit(1);
    }
    buffers[made].bytes = bytes;
    buffers[made++].length = length;
    return bytes;
}

/* Is called on every way out: by exit, and where main returns. */
static void wipe(void) {
    while (made > 0) {
        made--;
        explicit_bzero(buffers[made].bytes, buffers[made].length);
        free(buffers[made].bytes);
    }
}

/* Says what was done; ends the program where the result is another than expected. */
static void expect(const char *what, unsigned result, unsigned expected) {
    printf("%-46s %u\n", what, result);
    if (result != expected) {
        fprintf(stderr, "%s: %u was expected\n", what, expected);
        exit(1);
    }
}

/* So many HMAC values were made by the last call, no more and no fewer. */
static void expect_values(unsigned expected) {
    expect("  HMAC values", (unsigned)values, expected);
}

/* Fills a buffer with random bytes of the operating system. */
static void randomise(uint8_t *bytes, size_t length) {
    size_t done = 0;
    while (done < length) {
        ssize_t got = getrandom(bytes + done, length - done, 0);
        if (got < 0) {
            perror("getrandom");
            exit(1);
        }
        done += (size_t)got;
    }
}

static const uint8_t *octets(const char *text) {
    return (const uint8_t *)text;
}

/* Each of these makes a call, wipes the stack that it used, and what it was given that nobody needs any more. */

static unsigned format(void) {
    unsigned result;
    randomise(key, KEY);
    randomise(salt, 32);
    result = mivrozh_format(image, IMAGE, PROFILE, STRIPES, key, KEY, salt, COUNT, octets(UUID), 36, &values);
    mivrozh_wipe_stack();
    return result;
}

/* Here a file or a device would be brought to a state that a loss of power leaves as it is, as by fdatasync(2). */
static void flush(void) {
}

/*
 * Carries out the list of an accepted call, as mivrozh.h says: flushed before sector 1, after it, and after sector 0; and
 * before all, since what a killed program has written may still be in the system's cache.
 */
static void carry_out(size_t length) {
    const uint8_t *entry;
    flush();
    for (entry = list; entry < list + length; entry += ENTRY) {
        size_t sector = (size_t)entry[0] << 24 | (size_t)entry[1] << 16 | (size_t)entry[2] << 8 | entry[3];
        if (sector == 1) flush();
        memcpy(disk + sector * 512, entry + 4, 512);
        if (sector <= 1) flush();
    }
}

/* Is the disk's header, and are its key areas, what the image has? */
static unsigned disk_is_image(void) {
    return memcmp(disk, image, PAYLOAD_START * 512) == 0;
}

static unsigned add(uint8_t slot, const char *passphrase) {
    unsigned result;
    randomise(salt, 32);
    randomise(stripes, RANDOM);
    result = mivrozh_add(image, IMAGE, slot, key, KEY, octets(passphrase), strlen(passphrase), salt, COUNT,
                         stripes, RANDOM, list, LIST, &values);
    mivrozh_wipe_stack();
    explicit_bzero(stripes, RANDOM);
    if (result == 0) carry_out(LIST);
    return result;
}

static unsigned change(uint8_t from, const char *old, uint8_t to, const char *new_one) {
    unsigned result;
    randomise(salt, 32);
    randomise(stripes, RANDOM);
    randomise(filler, FILLER);
    result = mivrozh_change(image, IMAGE, from, octets(old), strlen(old), to, octets(new_one), strlen(new_one), salt, COUNT,
                            stripes, RANDOM, filler, FILLER, list, 2 * LIST, &values);
    mivrozh_wipe_stack();
    explicit_bzero(stripes, RANDOM);
    if (result == 0) carry_out(2 * LIST);
    return result;
}

static unsigned revoke(uint8_t slot) {
    unsigned result;
    randomise(filler, FILLER);
    result = mivrozh_revoke(image, IMAGE, slot, filler, FILLER, list, LIST, &values);
    if (result == 0) carry_out(LIST);
    return result;
}

/* The slot that the passphrase opens, whose key must be the drive's; 0 where none does. */
static unsigned slot_of(const char *passphrase) {
    unsigned slot, result = mivrozh_open(image, IMAGE, octets(passphrase), strlen(passphrase), opened, &values);
    mivrozh_wipe_stack();
    if (result == 0) {
        expect("  its key is the drive's", memcmp(opened + 2, key, KEY) == 0 && opened[1] == KEY, 1);
    }
    slot = opened[0];
    explicit_bzero(opened, 66);
    return slot;
}

/* The slots that are enabled, as the digits of a number: 17 where they are 1 and 7. No secret is asked for. */
static unsigned enabled_slots(void) {
    uint8_t enabled[8];
    unsigned slot, digits = 0;
    expect("show which slots are enabled", mivrozh_slots(image, IMAGE, enabled), 0);
    for (slot = 1; slot <= 8; slot++)
        if (enabled[slot - 1]) digits = 10 * digits + slot;
    return digits;
}

static unsigned write_units(const uint8_t *with) {
    unsigned result = mivrozh_write(image, IMAGE, with, KEY, 0, UNITS, plain, PAYLOAD, &values);
    mivrozh_wipe_stack();
    return result;
}

static unsigned read_units(const uint8_t *with, uint64_t first, uint64_t units) {
    unsigned result = mivrozh_read(image, IMAGE, with, KEY, first, units, units ? back : NULL, units * 512, &values);
    mivrozh_wipe_stack();
    return result;
}

/* Writes and reads the payload under the key that slot 7 holds. */
static void check_payload(void) {
    unsigned result = mivrozh_open_slot(image, IMAGE, 7, octets(SECOND), strlen(SECOND), opened, &values);
    mivrozh_wipe_stack();
    expect("open slot 7 by number", result, 0);
    expect_values(TRIAL);
    randomise(plain, PAYLOAD);
    expect("write 8 units", write_units(opened + 2), 0);
    expect_values(CHECKSUM);
    expect("the image has other bytes than were written", memcmp(image + PAYLOAD_START * 512, plain, PAYLOAD) != 0, 1);
    expect("read them", read_units(opened + 2, 0, UNITS), 0);
    expect("they are the same", memcmp(plain, back, PAYLOAD) == 0, 1);
    expect("read no unit at the end, with no buffer", read_units(opened + 2, UNITS, 0), 0);
    expect_values(CHECKSUM);
    expect("read beyond the end: refused", read_units(opened + 2, 1, UNITS), 19);
    expect_values(0);
    explicit_bzero(opened, 66);
    explicit_bzero(plain, PAYLOAD);
    explicit_bzero(back, PAYLOAD);
}

int main(void) {
    if (atexit(wipe) != 0) return 1;
    image = buffer(IMAGE), key = buffer(KEY), opened = buffer(66), salt = buffer(32);
    stripes = buffer(RANDOM), filler = buffer(FILLER), plain = buffer(PAYLOAD), back = buffer(PAYLOAD);
    list = buffer(2 * LIST), disk = buffer(IMAGE);
    expect("format", format(), 0);
    expect_values(CHECKSUM);
    memcpy(disk, image, IMAGE);
    expect("  none is", enabled_slots(), 0);
    expect("open with no passphrase there: refused", slot_of(FIRST), 0);
    expect("add the first passphrase, slot 1", add(1, FIRST), 0);
    expect_values(CHECKSUM + DERIVATION);
    expect("add another to slot 1: refused", add(1, SECOND), 15);
    expect_values(0);
    expect("revoke the only slot: refused", revoke(1), 18);
    expect("add the second passphrase, slot 7", add(7, SECOND), 0);
    expect("  their numbers, a digit for each", enabled_slots(), 17);
    expect("the second opens slot", slot_of(SECOND), 7);
    expect_values(2 * TRIAL);
    expect("the first opens slot, and slot 7 is not tried", slot_of(FIRST), 1);
    expect_values(TRIAL);
    check_payload();
    expect("change slot 7 to slot 2", change(7, SECOND, 2, THIRD), 0);
    expect_values(TRIAL + DERIVATION);
    expect("  the disk has all of it", disk_is_image(), 1);
    expect("  their numbers, a digit for each", enabled_slots(), 12);
    expect("the second opens nothing", slot_of(SECOND), 0);
    expect_values(2 * TRIAL);
    expect("the third opens slot", slot_of(THIRD), 2);
    expect("revoke slot 1, with a list too short: refused",
           mivrozh_revoke(image, IMAGE, 1, filler, FILLER, list, LIST - 1, &values), 20);
    expect("revoke slot 1", revoke(1), 0);
    expect_values(0);
    expect("  the disk has all of it", disk_is_image(), 1);
    expect("  its number", enabled_slots(), 2);
    expect("the first opens nothing", slot_of(FIRST), 0);
    expect("the third opens slot", slot_of(THIRD), 2);
    puts("all as expected");
    return 0;
}
