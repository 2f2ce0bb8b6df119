/*
 * No branch and no address that the library works out comes from a secret. This program runs under valgrind's memcheck. It marks
 * master keys, passphrases, stripes, filler and plaintext as undefined and makes every call; memcheck follows each of their bits
 * through the library and reports the jumps and the addresses that depend on one. No report is suppressed.
 *
 * What is public: lengths, counts, salts, numbers of slots and units, which were never marked; how many HMAC values a call made, which
 * must be unmarked and the number of mivrozh.h's COST; the image after a call, since it lies on the drive; and the 20 bytes of a
 * key's checksum, by which a key is judged. The last two are declared so, by `declare_public`.
 *
 *   constant_time             every call; its last line is "all as expected", or it fails
 *   constant_time --verdict   the same with the checksums left secret: memcheck must report the library's comparison of them
 *   constant_time --branch    a branch of this program on a marked byte, which memcheck must report
 *   constant_time --index     an index of this program from a marked byte, likewise
 */
#include <mivrozh.h>

#include <stdio.h>
#include <stdlib.h>
#include <string.h>
#include <valgrind/memcheck.h>

enum { UNIT = 512, IMAGE = (2048 + 80) * UNIT, MOST_KEY = 64, MOST_AREA = 40 * UNIT, COUNT = 1000, MOST_UNITS = 70, CHECKSUM = 20 };
/* A write of a list: the sector's number and its bytes. */
enum { ENTRY = 4 + UNIT, MOST_LIST = 42 * ENTRY };
/* The third is longer than a block of SHA-1 and of SHA-256, so HMAC takes its digest. */
enum passphrase { FIRST, SECOND, THIRD, PASSPHRASES };

static const size_t LENGTHS[PASSPHRASES] = {1, 64, 80};
static const uint8_t UUID[] = "6a2b1f0e-3c4d-4e5f-8a9b-0c1d2e3f4a5b";

/* The drive at work: its profile, its number of stripes, the length of its key. */
static unsigned profile, stripes;
static size_t length;

/* The secrets as they are; the copies of them that are lent to a call, and marked. */
static uint8_t key[MOST_KEY], passphrases[PASSPHRASES][80], random_bytes[MOST_AREA], plain[MOST_UNITS * UNIT];
static uint8_t lent_key[MOST_KEY], lent_old[80], lent_new[80], lent_random[MOST_AREA], lent_filler[MOST_AREA];
static uint8_t image[IMAGE], salt[32], opened[66], buffer[MOST_UNITS * UNIT], list[2 * MOST_LIST];
/* How many HMAC values the last call made. */
static uint64_t values;

/* How many checksums the library has derived, and whether they stay secret. */
static unsigned checksums, checksums_are_secret;

static void must(int holds, const char *what) {
    if (holds) return;
    fprintf(stderr, "not as expected: %s\n", what);
    exit(1);
}

static void fill(uint8_t *bytes, size_t many, uint64_t seed) {
    uint64_t state = seed * UINT64_C(0x9E3779B97F4A7C15) | 1;
    for (size_t at = 0; at < many; at++) {
        state ^= state << 13;
        state ^= state >> 7;
        state ^= state << 17;
        bytes[at] = (uint8_t)(state >> 32);
    }
}

/* Lends a secret: a copy whose bytes are marked. */
static const uint8_t *secret(uint8_t *lent, const uint8_t *bytes, size_t many) {
    memcpy(lent, bytes, many);
    (void)VALGRIND_MAKE_MEM_UNDEFINED(lent, many);
    return lent;
}

static const uint8_t *secret_passphrase(uint8_t *lent, enum passphrase which) {
    return secret(lent, passphrases[which], LENGTHS[which]);
}

static void declare_public(void *bytes, size_t many) {
    (void)VALGRIND_MAKE_MEM_DEFINED(bytes, many);
}

/* Whether memcheck has these marks, 0xFF or 0, for every byte. */
static int has_marks(const void *bytes, size_t many, uint8_t marks) {
    for (size_t at = 0; at < many; at++) {
        uint8_t found = (uint8_t)~marks;
        if (VALGRIND_GET_VBITS((const uint8_t *)bytes + at, &found, 1) != 1 || found != marks) return 0;
    }
    return 1;
}

/* Is every bit marked? Where one is not, its mark was lost on the way, and memcheck would not see what becomes of it. */
static int is_secret(const void *bytes, size_t many) {
    return has_marks(bytes, many, 0xFF);
}

/* Does no bit depend on a secret? */
static int is_public(const void *bytes, size_t many) {
    return checksums_are_secret || has_marks(bytes, many, 0);
}

/* The call's number must be public and the expected one. Says how many reports memcheck has made in this call. */
static void expect(const char *what, unsigned number, unsigned expected) {
    static unsigned before;
    unsigned now = VALGRIND_COUNT_ERRORS;
    must(is_public(&number, sizeof number), "the number comes from no secret");
    declare_public(&number, sizeof number);
    printf("%-24s profile %u, key of %2zu bytes, %3u stripes: %2u, %u reports\n", what, profile, length, stripes, number, now - before);
    before = now;
    must(number == expected, what);
}

/* The number of HMAC values must be public and the expected one. */
static void expect_values(uint64_t expected) {
    must(is_public(&values, sizeof values), "the number of HMAC values comes from no secret");
    declare_public(&values, sizeof values);
    must(values == expected, "the number of HMAC values");
}

/* HMAC values of so many derived bytes, of a slot's key, and of a trial of a slot. Every count is COUNT. */
static uint64_t values_of(size_t many) {
    size_t digest = profile <= 2 ? 20 : 32;
    return COUNT * ((many + digest - 1) / digest);
}

static uint64_t derivation(void) {
    return values_of(length);
}

static uint64_t trial(void) {
    return derivation() + values_of(CHECKSUM);
}

static unsigned be32(const uint8_t *bytes) {
    return (unsigned)bytes[0] << 24 | (unsigned)bytes[1] << 16 | (unsigned)bytes[2] << 8 | bytes[3];
}

/* The header's fields are read as public ones: format has declared it so. */
static uint8_t *payload(void) {
    return image + (size_t)be32(image + 104) * UNIT;
}

static uint8_t *area(unsigned slot) {
    return image + (size_t)be32(image + 208 + 48 * (slot - 1) + 40) * UNIT;
}

/* Bytes of a slot's area, and of the list of the work on it. */
static size_t area_bytes(void) {
    return stripes * length;
}

static size_t list_bytes(void) {
    return ENTRY * ((area_bytes() + UNIT - 1) / UNIT + 2);
}

/*
 * The list of the work on a slot, from this byte of the buffer on: the numbers of its sectors and the header are public, the area's
 * bytes are marked. The list lies on the drive in the end, so it is declared public then.
 */
static void expect_list(size_t from, unsigned slot) {
    size_t at = 0, sectors = (area_bytes() + UNIT - 1) / UNIT;
    for (; at < sectors; at++) {
        uint8_t *entry = list + from + at * ENTRY;
        size_t rest = area_bytes() - at * UNIT;
        must(is_public(entry, 4) && is_secret(entry + 4, rest < UNIT ? rest : UNIT), "the marks have gone to the list's area");
        must(be32(entry) * (size_t)UNIT == (size_t)(area(slot) - image) + at * UNIT, "the sector of the area");
    }
    must(is_public(list + from + sectors * ENTRY, 2 * ENTRY), "the list's header comes from no secret");
    declare_public(list + from, list_bytes());
}

/*
 * Around the library's PBKDF2, by valgrind. The arguments are what is made, its length, the hash, the passphrase, its length, the salt,
 * its length, the count; those behind the second are passed on as they are, so that it does no harm where the compiler has left one
 * out. It returns the number of HMAC values. What has 20 bytes is the checksum of a key and is public: that of the drive's key stands in
 * the header, and whether that of another differs is what the call answers. How many of its first bytes are the same may show too.
 */
uint64_t I_WRAP_SONAME_FNNAME_ZZ(NONE, pbkdf2ZcZcpbkdf2)(uint8_t *made, size_t many, size_t hash, const void *from, size_t from_length,
                                                         const void *with, size_t with_length, size_t count) {
    OrigFn library;
    uint64_t number;
    VALGRIND_GET_ORIG_FN(library);
    CALL_FN_W_8W(number, library, made, many, hash, from, from_length, with, with_length, count);
    must(many == CHECKSUM || many == length, "a checksum, or a key as long as the drive's");
    must(is_secret(made, many), "the marks have gone through PBKDF2");
    must(has_marks(&number, sizeof number, 0) && number == values_of(many), "the number of HMAC values comes from no secret");
    if (many != CHECKSUM) return number;
    checksums++;
    if (!checksums_are_secret) declare_public(made, many);
    return number;
}

static void format(void) {
    unsigned number = mivrozh_format(image, IMAGE, (uint8_t)profile, stripes, secret(lent_key, key, length), length, salt, COUNT, UUID,
                                     36, &values);
    declare_public(image, IMAGE);
    expect("format", number, 0);
    expect_values(COUNT);
}

static void add(unsigned slot, enum passphrase which) {
    size_t many = (stripes - 1) * length;
    unsigned number = mivrozh_add(image, IMAGE, (uint8_t)slot, secret(lent_key, key, length), length, secret_passphrase(lent_new, which),
                                  LENGTHS[which], salt, COUNT, secret(lent_random, random_bytes, many), many, list, list_bytes(),
                                  &values);
    must(is_secret(area(slot), area_bytes()), "the marks have gone to the area");
    expect_list(0, slot);
    declare_public(image, IMAGE);
    expect("add", number, 0);
    expect_values(COUNT + derivation());
}

/* What an opening gave: the key is marked, and is the drive's. */
static void expect_key(unsigned slot) {
    must(is_public(opened, 2) && is_secret(opened + 2, length), "the marks have gone to the key, and to it alone");
    declare_public(opened, sizeof opened);
    must(opened[0] == slot && opened[1] == length && memcmp(opened + 2, key, length) == 0, "slot, length and key");
}

static void open_slot(unsigned slot, enum passphrase which) {
    unsigned number = mivrozh_open_slot(image, IMAGE, (uint8_t)slot, secret_passphrase(lent_old, which), LENGTHS[which], opened, &values);
    expect("open, by number", number, 0);
    expect_values(trial());
    expect_key(slot);
}

/* Opens this slot, the last of so many that are tried. */
static void open_any(enum passphrase which, unsigned slot, unsigned tried) {
    unsigned number = mivrozh_open(image, IMAGE, secret_passphrase(lent_old, which), LENGTHS[which], opened, &values);
    expect("open", number, 0);
    expect_values(tried * trial());
    expect_key(slot);
}

static void open_refused(enum passphrase which, unsigned tried) {
    static const uint8_t zeros[66];
    unsigned number = mivrozh_open(image, IMAGE, secret_passphrase(lent_old, which), LENGTHS[which], opened, &values);
    expect("open, wrong passphrase", number, 17);
    expect_values(tried * trial());
    must(is_public(opened, sizeof opened), "a refused opening gives nothing");
    declare_public(opened, sizeof opened);
    must(memcmp(opened, zeros, sizeof zeros) == 0, "a refused opening gives zeros");
}

static void change(unsigned from, enum passphrase old, unsigned to, enum passphrase new) {
    size_t many = (stripes - 1) * length, all = area_bytes();
    unsigned number = mivrozh_change(image, IMAGE, (uint8_t)from, secret_passphrase(lent_old, old), LENGTHS[old], (uint8_t)to,
                                     secret_passphrase(lent_new, new), LENGTHS[new], salt, COUNT,
                                     secret(lent_random, random_bytes, many), many, secret(lent_filler, random_bytes, all), all,
                                     list, 2 * list_bytes(), &values);
    must(is_secret(area(from), all) && is_secret(area(to), all), "the marks have gone to both areas");
    expect_list(0, to);
    expect_list(list_bytes(), from);
    declare_public(image, IMAGE);
    expect("change", number, 0);
    expect_values(trial() + derivation());
}

static void revoke(unsigned slot) {
    size_t all = area_bytes();
    unsigned number = mivrozh_revoke(image, IMAGE, (uint8_t)slot, secret(lent_filler, random_bytes, all), all, list, list_bytes(),
                                     &values);
    must(is_secret(area(slot), all), "the marks of the filler have gone to the area");
    expect_list(0, slot);
    declare_public(image, IMAGE);
    expect("revoke", number, 0);
    expect_values(0);
}

/*
 * The screens, each slot's state and numbers. Everything else in the image that is no part of the header's check is marked: the key's
 * checksum, salts, the UUID, areas and payload. Nothing of it comes into the answers.
 */
static void show(unsigned one, unsigned other) {
    uint8_t enabled[8];
    uint32_t counts[8], starts[8], many[8];
    unsigned number;
    (void)VALGRIND_MAKE_MEM_UNDEFINED(image + 112, 52);
    (void)VALGRIND_MAKE_MEM_UNDEFINED(image + 168, 40);
    for (unsigned slot = 1; slot <= 8; slot++) (void)VALGRIND_MAKE_MEM_UNDEFINED(image + 208 + 48 * (slot - 1) + 8, 32);
    (void)VALGRIND_MAKE_MEM_UNDEFINED(image + 592, IMAGE - 592);
    number = mivrozh_slots(image, IMAGE, enabled);
    expect("slots", number, 0);
    must(has_marks(enabled, 8, 0), "which slots are enabled comes from nothing that is marked");
    for (unsigned slot = 1; slot <= 8; slot++) must(enabled[slot - 1] == (slot == one || slot == other), "the enabled slots");
    number = mivrozh_slot_details(image, IMAGE, enabled, counts, starts, many);
    expect("slots, with details", number, 0);
    must(has_marks(enabled, 8, 0) && has_marks(counts, 32, 0) && has_marks(starts, 32, 0) && has_marks(many, 32, 0), "nor do the details");
    declare_public(image, IMAGE);
    for (unsigned slot = 1; slot <= 8; slot++) {
        int is_enabled = slot == one || slot == other;
        must(enabled[slot - 1] == is_enabled && counts[slot - 1] == (is_enabled ? COUNT : 0), "states and counts");
        must(image + (size_t)starts[slot - 1] * UNIT == area(slot) && many[slot - 1] == stripes, "starts and stripes");
    }
}

static void write_units(uint64_t first, size_t units) {
    size_t many = units * UNIT;
    unsigned number = mivrozh_write(image, IMAGE, secret(lent_key, key, length), length, first, units, secret(buffer, plain, many), many,
                                    &values);
    must(is_secret(payload() + first * UNIT, many), "the marks have gone to the payload");
    declare_public(image, IMAGE);
    printf("%2zu units: ", units);
    expect("write", number, 0);
    expect_values(COUNT);
}

/* The units are public as they lie on the drive, and the key alone is secret. */
static void read_units(uint64_t first, size_t units) {
    size_t many = units * UNIT;
    unsigned number;
    memset(buffer, 0, many);
    number = mivrozh_read(image, IMAGE, secret(lent_key, key, length), length, first, units, buffer, many, &values);
    must(is_secret(buffer, many), "the marks of the key have gone to what was read");
    declare_public(buffer, many);
    printf("%2zu units: ", units);
    expect("read", number, 0);
    expect_values(COUNT);
    must(memcmp(buffer, plain, many) == 0, "what was written is read");
}

/* With a key that is not the drive's. */
static void read_refused(void) {
    unsigned number = mivrozh_read(image, IMAGE, secret(lent_key, plain, length), length, 0, 1, buffer, UNIT, &values);
    expect("read, wrong key", number, 17);
    expect_values(COUNT);
}

/* Every call on a drive. AES works on 32 blocks at a time, so on 32 tweaks, or on the 32 blocks of a unit: the runs are shorter and longer. */
static void life_of_a_drive(unsigned which_profile, unsigned number_of_stripes) {
    static const size_t RUNS[] = {1, 3, 33, MOST_UNITS};
    profile = which_profile, stripes = number_of_stripes, length = which_profile % 2 ? 32 : 64, checksums = 0;
    must(area_bytes() <= MOST_AREA && list_bytes() <= MOST_LIST, "an area has room, and a list");
    format();
    add(1, FIRST);
    add(2, SECOND);
    show(1, 2);
    open_slot(2, SECOND);
    open_any(SECOND, 2, 2);
    open_refused(THIRD, 2);
    change(1, FIRST, 3, THIRD);
    revoke(2);
    show(3, 3);
    open_any(THIRD, 3, 1);
    for (size_t run = 0; run < sizeof RUNS / sizeof RUNS[0]; run++) {
        write_units(run, RUNS[run]);
        read_units(run, RUNS[run]);
    }
    read_refused();
    /* One for each call but revoke and the screens, and for the two openings that try two slots one more. */
    must(checksums == 19, "every checksum was seen");
}

static int every_call(void) {
    fill(key, MOST_KEY, 1), fill(passphrases[0], sizeof passphrases, 2), fill(random_bytes, MOST_AREA, 3);
    fill(plain, sizeof plain, 4), fill(salt, sizeof salt, 5);
    /* Areas of 96 and 192 bytes, and of 37 units and a half; 1 and 2 have SHA-1, 3 and 4 SHA-256. */
    for (unsigned which = 1; which <= 4; which++) {
        life_of_a_drive(which, 3);
        life_of_a_drive(which, which % 2 ? 600 : 300);
    }
    must(VALGRIND_COUNT_ERRORS == 0, "no branch and no address comes from a secret");
    puts("all as expected");
    return 0;
}

/* What memcheck must report: else its silence about the library would say nothing. */
static int branch_on(const volatile uint8_t *byte) {
    if (*byte == 7) puts("seven");
    return 0;
}

static int index_from(const volatile uint8_t *byte) {
    buffer[*byte] = 1;
    return 0;
}

int main(int arguments, char **argument) {
    const char *mode = arguments == 2 ? argument[1] : "";
    must(RUNNING_ON_VALGRIND, "without valgrind this program sees nothing");
    if (strcmp(mode, "--branch") == 0) return branch_on(secret(lent_key, key, 1));
    if (strcmp(mode, "--index") == 0) return index_from(secret(lent_key, key, 1));
    checksums_are_secret = strcmp(mode, "--verdict") == 0;
    return every_call();
}
