#!/usr/bin/env python3
"""The splitter of LUKS 1 over SHA-1 and SHA-256 (LUKS 1.2.2, section 2.4), independent of the engine: Python's hashlib.

Prints vectors, among them those of crates/vectors/src/splits.rt: for each key length and number of stripes the last
stripe, where the key is the bytes 0, 1, 2, ... and the random stripes are the bytes 7, 14, 21, ... modulo 256.
"""
import hashlib


def diffuse(algorithm, block):
    size = algorithm().digest_size
    out = b""
    for i in range(0, len(block), size):
        piece = block[i : i + size]
        out += algorithm((i // size).to_bytes(4, "big") + piece).digest()[: len(piece)]
    return out


def xor(a, b):
    return bytes(x ^ y for x, y in zip(a, b))


def last_stripe(algorithm, key, stripes):
    d = bytes(len(key))
    for i in range(0, len(stripes), len(key)):
        d = diffuse(algorithm, xor(d, stripes[i : i + len(key)]))
    return xor(d, key)


for algorithm in hashlib.sha1, hashlib.sha256:
    for length, counts in ((32, (1, 3)), (64, (2, 8))):
        key = bytes(range(length))
        print(algorithm().name, "diffuse", length, diffuse(algorithm, key).hex())
        for n in counts:
            random = bytes(7 * (i + 1) % 256 for i in range((n - 1) * length))
            print(algorithm().name, "split", length, n, last_stripe(algorithm, key, random).hex())
