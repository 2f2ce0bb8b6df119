#!/bin/sh
# Makes four of the stored drives of crates/drives/data with cryptsetup (2.6.1 made those that are kept) and qemu-img (7.2).
# Run at the repository's top: tools/make_drives.sh OUT
# The salts and random stripes are cryptsetup's own, so a new run makes other bytes, and drives that open alike.
set -eu
out=${1:?usage: make_drives.sh OUT}
work=$(mktemp -d)
trap 'rm -rf "$work"' EXIT
mkdir -p "$out"

# The plaintext of the payload, 8 units: byte i is 7 i modulo 251.
python3 -c "import sys; sys.stdout.buffer.write(bytes(7 * i % 251 for i in range(4096)))" > "$work/plain"

# make NAME HASH BITS SECTORS UUID: SECTORS is the payload start that cryptsetup writes with --align-payload 1.
# The volume key is the bytes 0, 1, 2, ..; slots 1, 2, 4 and 8 (cryptsetup's 0, 1, 3 and 7) hold one passphrase each.
make() {
    image=$out/$1.img hash=$2 bits=$3 sectors=$4 uuid=$5
    python3 -c "import sys; sys.stdout.buffer.write(bytes(range($bits // 8)))" > "$work/key"
    printf 'first passphrase' > "$work/p1"
    printf 'second passphrase' > "$work/p2"
    printf 'a fourth passphrase, which is longer than the sixty-four bytes of a block of SHA-1' > "$work/p4"
    printf '8' > "$work/p8"
    rm -f "$image"
    truncate -s $(((sectors + 8) * 512)) "$image"
    cryptsetup luksFormat --batch-mode --type luks1 --cipher aes-xts-plain64 --hash "$hash" --key-size "$bits" \
        --pbkdf-force-iterations 1000 --align-payload 1 --volume-key-file "$work/key" --uuid "$uuid" \
        --key-file "$work/p1" "$image"
    for slot in 2 4 8; do
        cryptsetup luksAddKey --batch-mode --pbkdf-force-iterations 1000 --key-file "$work/p1" \
            --new-key-slot $((slot - 1)) "$image" "$work/p$slot"
    done
    qemu-img convert -q -n --object "secret,id=s,file=$work/p1" -f raw \
        --target-image-opts "$work/plain" "driver=luks,key-secret=s,file.filename=$image"
    truncate -s $(((sectors + 8) * 512)) "$image"
}

make luks1-256 sha1 256 2056 6d69767a-6f68-4256-8000-000000000001
make luks1-512 sha1 512 4040 6d69767a-6f68-4512-8000-000000000002
make luks1-sha256-256 sha256 256 2056 6d69767a-6f68-4256-8000-000000000003
make luks1-sha256-512 sha256 512 4040 6d69767a-6f68-4512-8000-000000000004
