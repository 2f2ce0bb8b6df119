/*
 * What the calls leave on the stack of a C program, and that mivrozh_wipe_stack takes it away. In the manner of stack.rs: each
 * call runs on a thread whose stack is memory of this program; when it has returned the thread spins, and pieces of the keys
 * are searched for in the stack as it lies there. They must be found without the wiping, and none with it: then nothing but zeros
 * is there, so no key in another form either.
 */
#define _DEFAULT_SOURCE
#include <mivrozh.h>

#include <pthread.h>
#include <stdio.h>
#include <stdlib.h>
#include <string.h>

enum { STACK = 512 * 1024, KEY = 64, STRIPES = 9, COUNT = 1000, UNITS = 40, IMAGE = (2048 + UNITS) * 512, PASSPHRASE = 64 };
/* OWN: what the frame of the thread itself may take below its upper end. */
enum { RANDOM = (STRIPES - 1) * KEY, FILLER = STRIPES * KEY, LIST = 4 * 516, DERIVED = 20, PIECE = 8, OWN = 256 };
enum call { FORMAT, ADD, OPEN_SLOT, OPEN, CHANGE, READ, WRITE, CALLS };

static const char *const NAMES[CALLS] = {"format", "add", "open_slot", "open", "change", "read", "write"};
static const uint8_t UUID[] = "6a2b1f0e-3c4d-4e5f-8a9b-0c1d2e3f4a5b";

/* No argument of a call stands on the stack. */
static uint8_t image[IMAGE], key[KEY], passphrase[PASSPHRASE], salt[32], random_bytes[RANDOM], filler[FILLER];
static uint8_t buffer[UNITS * 512], opened[66], derived[DERIVED], list[2 * LIST];
static uint64_t values;
static uint8_t *stack;
static const uint8_t *frame;

/* 2, then 4: keys of 64 bytes, with each of the hashes. */
static uint8_t profile;

static enum call call;
static int wipes, number, done, released;

static void must(int holds, const char *what) {
    if (!holds) {
        fprintf(stderr, "%s\n", what);
        exit(1);
    }
}

static void fill(uint8_t *bytes, size_t length, uint64_t seed) {
    uint64_t state = seed * UINT64_C(0x9E3779B97F4A7C15) | 1;
    for (size_t at = 0; at < length; at++) {
        state ^= state << 13;
        state ^= state >> 7;
        state ^= state << 17;
        bytes[at] = (uint8_t)(state >> 32);
    }
}

static int make(enum call which) {
    switch (which) {
    case FORMAT: return mivrozh_format(image, IMAGE, profile, STRIPES, key, KEY, salt, COUNT, UUID, 36, &values);
    case ADD:
        return mivrozh_add(image, IMAGE, 2, key, KEY, passphrase, PASSPHRASE, salt, COUNT, random_bytes, RANDOM, list, LIST, &values);
    case OPEN_SLOT: return mivrozh_open_slot(image, IMAGE, 1, passphrase, PASSPHRASE, opened, &values);
    case OPEN: return mivrozh_open(image, IMAGE, passphrase, PASSPHRASE, opened, &values);
    case CHANGE:
        return mivrozh_change(image, IMAGE, 1, passphrase, PASSPHRASE, 3, filler, 20, salt, COUNT, random_bytes, RANDOM,
                              filler, FILLER, list, 2 * LIST, &values);
    case READ: return mivrozh_read(image, IMAGE, key, KEY, 0, UNITS, buffer, sizeof buffer, &values);
    default: return mivrozh_write(image, IMAGE, key, KEY, 0, UNITS, buffer, sizeof buffer, &values);
    }
}

static void *thread(void *nothing) {
    frame = __builtin_frame_address(0);
    number = make(call);
    if (wipes) mivrozh_wipe_stack();
    __atomic_store_n(&done, 1, __ATOMIC_RELEASE);
    while (!__atomic_load_n(&released, __ATOMIC_ACQUIRE)) {
    }
    return nothing;
}

/* How many pieces of the secret stand in the stack, as they are or with the bytes of each word of four turned around. */
static unsigned pieces(const uint8_t *secret, size_t length) {
    static const uint8_t nothing[PIECE];
    uint8_t turned[KEY];
    unsigned found = 0;
    for (size_t at = 0; at < length; at++) turned[at] = secret[at / 4 * 4 + 3 - at % 4];
    for (size_t at = 0; at + PIECE <= STACK; at++) {
        if (memcmp(stack + at, nothing, PIECE) == 0) continue;
        for (size_t from = 0; from + PIECE <= length; from++)
            found += memcmp(stack + at, secret + from, PIECE) == 0 || memcmp(stack + at, turned + from, PIECE) == 0;
    }
    return found;
}

/* How many bytes below the thread's own frame are not zero. */
static unsigned bytes_below(void) {
    unsigned found = 0;
    for (const uint8_t *at = stack; at < frame - OWN; at++) found += *at != 0;
    return found;
}

/* What a call leaves on the stack. */
struct left {
    unsigned pieces, bytes;
};

/* On a drive whose slot 1 has the passphrase. */
static struct left left_by(enum call which, int with_wiping) {
    pthread_attr_t attributes;
    pthread_t id;
    struct left found;
    must(make(FORMAT) == 0, "a drive is made");
    must(mivrozh_add(image, IMAGE, 1, key, KEY, passphrase, PASSPHRASE, salt, COUNT, random_bytes, RANDOM, list, LIST, &values) == 0,
         "slot 1");
    memset(stack, 0, STACK);
    call = which, wipes = with_wiping, number = 255, done = 0, released = 0;
    must(pthread_attr_init(&attributes) == 0 && pthread_attr_setstack(&attributes, stack, STACK) == 0, "a stack");
    must(pthread_create(&id, &attributes, thread, NULL) == 0, "a thread");
    while (!__atomic_load_n(&done, __ATOMIC_ACQUIRE)) {
    }
    found.pieces = pieces(key, KEY) + pieces(derived, DERIVED) + pieces(passphrase, PASSPHRASE);
    found.bytes = bytes_below();
    __atomic_store_n(&released, 1, __ATOMIC_RELEASE);
    must(pthread_join(id, NULL) == 0, "the thread ends");
    pthread_attr_destroy(&attributes);
    must(number == 0, "the call is accepted");
    return found;
}

/* Every call on drives of a profile. */
static int as_expected(uint8_t which_profile) {
    int well = 1;
    profile = which_profile;
    /* The key that the passphrase derives begins like the checksum of a drive whose master key is that passphrase. */
    must(mivrozh_format(image, IMAGE, profile, 1, passphrase, PASSPHRASE, salt, COUNT, UUID, 36, &values) == 0, "the derived key");
    memcpy(derived, image + 112, DERIVED);
    for (enum call which = FORMAT; which < CALLS; which++) {
        struct left bare = left_by(which, 0), wiped = left_by(which, 1);
        printf("profile %u: %-9s leaves %u pieces of keys in %u bytes, and %u in %u after the wiping\n", profile, NAMES[which],
               bare.pieces, bare.bytes, wiped.pieces, wiped.bytes);
        /* Of format as it is compiled today no piece of a key is left; all others show that the search finds what is there. */
        well = well && (which == FORMAT || bare.pieces > 0) && bare.bytes > 0 && wiped.pieces == 0 && wiped.bytes == 0;
    }
    return well;
}

int main(void) {
    int well;
    must(posix_memalign((void **)&stack, 4096, STACK) == 0, "memory");
    fill(key, KEY, 1), fill(passphrase, PASSPHRASE, 2), fill(salt, 32, 3), fill(random_bytes, RANDOM, 4);
    fill(filler, FILLER, 5);
    well = as_expected(2);
    well = as_expected(4) && well;
    free(stack);
    puts(well ? "all as expected" : "not as expected");
    return well ? 0 : 1;
}
