/*
 * mivrozh.h: LUKS version 1 drives (cipher aes, mode xts-plain64, hash sha1 or sha256, keys of 256 or 512 bits).
 *
 * Every call works on one image that the caller lends: the header, the eight key areas and the payload of a drive, from its
 * first byte. Link with libmivrozh.a (`pkg-config --cflags --libs mivrozh` where it is installed; in the repository it is
 * crates/capi/out/libcapi.a). The library needs memcpy and memset, has no global state, allocates nothing and makes no
 * system call; the stack of a call stays below MIVROZH_MOST_STACK bytes. Calls on different images may run at the same time.
 *
 * RESULT. 0: accepted. Else the number of the first check that failed, in the order each call lists; then the image and every
 * lent buffer are as they were before. The 66 bytes of an opening and the arrays of the two screens are no such buffers: they are
 * the call's answer, beside the number, and every such call fills them, a refused one with zeros. Nor is `values`: every call that
 * has it fills it with the number of HMAC values that it made, a refused one too, as COST says.
 *
 * WHAT THE CALLER OWES.
 *   - A pointer with a length n points to n readable bytes (writable ones where it is not const). Where the length is 0 any
 *     pointer will do, also NULL. A salt is 32 bytes, an `opened` 66, an array of a screen 8 entries, `values` one number: these
 *     pointers are never NULL.
 *   - A buffer that is written overlaps no other argument.
 *   - Nobody else changes what is lent while a call runs. The header is judged first and read again later, so memory that
 *     another program can write, such as a mapping of a file, is copied before it is lent.
 *   - Master key, salts and random bytes come from a good source of randomness, such as getrandom(2), and no salt is used
 *     twice. Filler is better random too.
 *   - Keys, passphrases, random bytes and `opened` are wiped by their owner. A call leaves parts of keys in the stack below
 *     its caller: mivrozh_wipe_stack, at the end of this file, wipes that. What must not reach the swap or a core dump is
 *     locked by its owner (mlock, MADV_DONTDUMP). The Rust binding does all of this.
 *   - What an add, a change or a revoke has changed goes to the disk by its list, as LISTS says.
 *
 * LISTS. An add, a change or a revoke that is accepted changes the image and fills a lent buffer with the list of its sector
 * writes. Each is 516 bytes: the number of a sector of the image, four bytes with the most significant first, and the 512
 * bytes that the sector gets. First come the sectors of the slot's n * L bytes of area, rising, (n * L + 511) / 512 of them,
 * the last whole with its old rest; then sector 1, then sector 0. So a list has 516 * ((n * L + 511) / 512 + 2) bytes. That
 * of a change is the list of its add, by the n of `to`, and then that of its revoke, by the n of `from`. The buffer is exactly
 * so long. Carried out in full, the list turns the image before the call into the one after.
 *   To carry it out: flush, so that the image before is on the disk, also what a killed program has left in the system's
 * cache; write the area's sectors, in any order, and flush; write sector 1 and flush; write sector 0 and flush. Of a change
 * do so with both halves. The power may fail at any time. It is taken that a disk writes each sector wholly or not at all,
 * that no other sector is harmed, also where the disk's own sectors are larger than 512 bytes, and that what was flushed is
 * there. Where a flush fails, what the disk holds is known only when it is read anew, as after a restart.
 *   After a cut the header check passes, every other slot opens as before, and of a change the old passphrase or the new one
 * opens. An add, a revoke, or a change whose `to` is still disabled: make the same call once more, before any other; it ends
 * the work, or (add, revoke) is refused with 15 since it is done. A change whose `to` is enabled: do not repeat it, revoke
 * `from`; refused with 15, it is done. With the same salt, random bytes and filler the image is the uncut one, byte for byte;
 * with new ones the work is ended as well.
 *   A cut revoke may leave a slot that is enabled and opens with no passphrase, and so may a cut change of its `from`; till
 * that is ended, the check for 18 counts that slot as another one that is enabled.
 *
 * COST. What takes the time is PBKDF2 with HMAC of the drive's hash. A derivation of m bytes with count c makes c HMAC values for
 * each D bytes of its result, D being 20 with sha1 and 32 with sha256, and for the rest: c times m / D, rounded up before the product,
 * (uint64_t)c * ((m + D - 1) / D). That, N(c) and the sums below need 64 bits: 4 * c is too large for 32 from a c of 2^30 on. `values`
 * gets the exact number that the call made, and each call says it by
 *   C        of the key's checksum, 20 bytes: the header's checksum count
 *   N(c)     of a slot's key, L bytes, with count c: 2 * c and 4 * c for an L of 32 and 64 with sha1, c and 2 * c with sha256
 *   S(k)     of a trial of slot k, be it the right passphrase or not: N(count of slot k) + C
 * A call that is refused with another number than 17 has made 0. All of it but which slot opens is known before the call, from the
 * header: the checksum count is the four bytes from byte 164, most significant first, and mivrozh_slot_details gives the slots'
 * counts. So a program can show how far an opening is: the sum of S(k) over the enabled slots is the most that a search makes, and
 * what it makes where it is refused with 17. The largest number that there is, 171,798,691,800, is far from the type's end.
 *
 * NUMBERS. L is the length of the drive's master key, 32 or 64 bytes; n is a slot's number of stripes.
 *    1  image below 1,024 bytes or no multiple of 512
 *    2  no LUKS magic
 *    3  not version 1
 *    4  no profile has the header's cipher, mode, hash and key length
 *    5  checksum count 0, or a slot with another state, with stripes outside 1 to 4,000, or enabled with count 0
 *    6  payload start beyond the image, or an area that begins before sector 2, passes the payload start or shares a byte
 *       with another
 *    7  profile unknown
 *    8  stripes outside 1 to 4,000
 *    9  key length not L
 *   10  count below 1,000
 *   11  UUID not 36 bytes of 33 to 126
 *   12  image shorter than the payload start that format gives it: 1 MiB or 2 MiB
 *   13  slot not 1 to 8
 *   14  passphrase not 1 to 512 bytes
 *   15  slot enabled where a free one is needed, or disabled where one in use is
 *   16  random bytes not (n - 1) * L, or filler not n * L
 *   17  the key's checksum differs from the header's: wrong key or passphrase
 *   18  no other slot is enabled
 *   19  first + units exceeds the payload
 *   20  buffer not 512 * units bytes, or not as long as the list of an add, change or revoke
 * "Header" below stands for the checks 1, 2, 3, 4, 5, 6.
 */
#ifndef MIVROZH_H
#define MIVROZH_H

#include <stddef.h>
#include <stdint.h>

/* The stack of a call stays below the first of these, in bytes. The second is what mivrozh_wipe_stack wipes. */
#define MIVROZH_MOST_STACK 57344
#define MIVROZH_WIPED_STACK (MIVROZH_MOST_STACK + 8192)

#ifdef __cplusplus
extern "C" {
#endif

/*
 * Makes a new drive: zeros everything before the payload, then writes the header. All slots are free, so add a passphrase at
 * once. The payload starts on a multiple of 2,048 sectors, that is, of 1 MiB, and keeps its bytes.
 *   image    2 MiB and the payload with 4,000 stripes. 1 MiB and the payload are enough with up to 3,967 stripes where L is
 *            32, and with up to 1,983 where it is 64
 *   profile  1: sha1, L is 32; 2: sha1, L is 64; 3: sha256, L is 32; 4: sha256, L is 64. All other calls take the hash from
 *            the header
 *   stripes  of every slot; other tools read 4,000 only
 *   key      the new master key, L bytes
 *   salt     of the key's checksum; count: its iterations
 *   uuid     36 bytes without a zero at the end
 *   values   of every call: the number of HMAC values that it made, as COST says
 * Refusals, in order: 1, 7, 8, 9, 10, 11, 12.
 * Cost: accepted `count`; refused 0.
 */
uint8_t mivrozh_format(uint8_t *image, size_t image_len, uint8_t profile, uint32_t stripes, const uint8_t *key, size_t key_len,
                       const uint8_t salt[32], uint32_t count, const uint8_t *uuid, size_t uuid_len,
                       uint64_t *values);

/*
 * Puts the master key under a passphrase into a free slot: splits it into n stripes, enciphers them into the slot's area
 * under a key derived from the passphrase, and enables the slot.
 *   random   (n - 1) * L bytes, the stripes but the last
 *   list     the sector writes, 516 * ((n * L + 511) / 512 + 2) bytes; as it was where refused
 * Refusals, in order: header, 13, 15 (slot enabled), 9, 14, 10, 16, 20, 17.
 * Cost: accepted C + N(count); refused with 17 C; else 0.
 */
uint8_t mivrozh_add(uint8_t *image, size_t image_len, uint8_t slot, const uint8_t *key, size_t key_len,
                    const uint8_t *passphrase, size_t passphrase_len, const uint8_t salt[32], uint32_t count,
                    const uint8_t *random, size_t random_len, uint8_t *list, size_t list_len, uint64_t *values);

/*
 * Opens one slot: recovers the master key that its area holds under the passphrase.
 *   opened   slot, L, and the key followed by zeros to 64 bytes; 66 zeros where refused
 * Refusals, in order: header, 13, 14, 15 (slot disabled), 17.
 * Cost: accepted or refused with 17 S(slot); else 0.
 */
uint8_t mivrozh_open_slot(const uint8_t *image, size_t image_len, uint8_t slot, const uint8_t *passphrase, size_t passphrase_len,
                          uint8_t opened[66], uint64_t *values);

/*
 * Opens the first slot, from 1 to 8, that the passphrase opens. `opened` as above.
 * Refusals, in order: header, 14, 17 (no enabled slot opens, or none is enabled).
 * Cost: accepted the sum of S(k) over the enabled slots up to the one that opens, that one too; refused with 17 the sum over all
 * enabled slots; else 0.
 */
uint8_t mivrozh_open(const uint8_t *image, size_t image_len, const uint8_t *passphrase, size_t passphrase_len, uint8_t opened[66],
                     uint64_t *values);

/*
 * Changes a passphrase: opens slot `from`, adds its key to the free slot `to` under the new passphrase, revokes `from`.
 *   random   (n - 1) * L bytes, by the stripes of `to`; filler: n * L bytes, by the stripes of `from`
 *   list     the sector writes of the add and then those of the revoke: as many bytes as the lists of both slots, each by its
 *            own n; as it was where refused
 * Refusals, in order: header, 13 (either slot), 15 (`from` disabled or `to` enabled), 14 (either passphrase), 10, 16, 20, 17.
 * Cost: accepted S(from) + N(count); refused with 17 S(from); else 0.
 */
uint8_t mivrozh_change(uint8_t *image, size_t image_len, uint8_t from, const uint8_t *old_passphrase, size_t old_len,
                       uint8_t to, const uint8_t *new_passphrase, size_t new_len, const uint8_t salt[32], uint32_t count,
                       const uint8_t *random, size_t random_len, const uint8_t *filler, size_t filler_len,
                       uint8_t *list, size_t list_len, uint64_t *values);

/*
 * Revokes a slot: overwrites its area with the filler and disables it. No passphrase is asked for.
 *   filler   n * L bytes
 *   list     the sector writes, 516 * ((n * L + 511) / 512 + 2) bytes; as it was where refused
 * Refusals, in order: header, 13, 15 (slot disabled), 18, 16, 20.
 * Cost: 0, accepted or refused.
 */
uint8_t mivrozh_revoke(uint8_t *image, size_t image_len, uint8_t slot, const uint8_t *filler, size_t filler_len,
                       uint8_t *list, size_t list_len, uint64_t *values);

/*
 * Shows which slots are enabled, and nothing else. No passphrase is asked for.
 *   enabled  for the slots 1 to 8, in this order: 1 where the slot is enabled, else 0; 8 zeros where refused
 * Two images that pass the header check give the same answer exactly when the same slots are enabled.
 * Refusals, in order: header.
 * Cost: 0; there is no `values`.
 */
uint8_t mivrozh_slots(const uint8_t *image, size_t image_len, uint8_t enabled[8]);

/*
 * Shows which slots are enabled, and each slot's numbers as the header has them, those of disabled slots too. No passphrase
 * is asked for.
 *   enabled  as above
 *   counts   iterations of each slot's derivation
 *   starts   where each slot's area begins, in sectors of the image
 *   stripes  n of each slot; zeros in all four where refused
 * Two images that pass the header check give the same answer exactly when they agree in these fields of all slots.
 * Refusals, in order: header.
 * Cost: 0; there is no `values`.
 */
uint8_t mivrozh_slot_details(const uint8_t *image, size_t image_len, uint8_t enabled[8], uint32_t counts[8], uint32_t starts[8], uint32_t stripes[8]);

/*
 * Reads and deciphers payload units, 512 bytes each, counted from 0 at the payload's start.
 *   key      the master key that an opening gave
 *   buffer   512 * units bytes; as it was where refused
 * Refusals, in order: header, 9, 19, 20, 17.
 * Cost: accepted or refused with 17 C, for the whole call and also where `units` is 0; else 0. The rest of the time is linear in
 * `units`.
 */
uint8_t mivrozh_read(const uint8_t *image, size_t image_len, const uint8_t *key, size_t key_len, uint64_t first, uint64_t units,
                     uint8_t *buffer, size_t buffer_len, uint64_t *values);

/*
 * Enciphers and writes payload units. Arguments, refusals and cost as for mivrozh_read.
 */
uint8_t mivrozh_write(uint8_t *image, size_t image_len, const uint8_t *key, size_t key_len, uint64_t first, uint64_t units,
                      const uint8_t *buffer, size_t buffer_len, uint64_t *values);

/*
 * Wipes the stack below its caller, as far as a call and the frames around it reach: MIVROZH_WIPED_STACK bytes, which must be
 * there. Call it right after a call that had a key or a passphrase, from the same function. It is no part of the library but is
 * compiled with the program, by GCC or clang. It pushes zeros, so that no byte is left out and the end of the stack is not
 * passed unseen.
 * Registers are not cleared. The dynamic linker saves them to the stack where a function is called for the first time; link
 * with -z now (gcc -Wl,-z,now), so that it has no need to.
 */
#if defined(__GNUC__) && defined(__x86_64__)
static __attribute__((noinline, unused)) void mivrozh_wipe_stack(void) {
    __asm__ volatile(
        "movl %0, %%ecx\n"
        "1:\n\t"
        "pushq $0\n\t"
        "decl %%ecx\n\t"
        "jnz 1b\n\t"
        "addq %1, %%rsp"
        :
        : "i"(MIVROZH_WIPED_STACK / 8), "i"(MIVROZH_WIPED_STACK)
        : "rcx", "cc", "memory");
}
#endif

#ifdef __cplusplus
}
#endif

#endif
