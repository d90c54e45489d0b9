"""What a block file may suffer: each damage takes the file and a source of chance."""
import itertools
import struct

BLOCK, RECORD, LONGEST, MOST_RECORDS = 512, 12, 65536, 127 * 41


def sums_mended(data):
    whole = len(data) // BLOCK * BLOCK
    mended = bytearray(data)
    for at in range(0, whole, BLOCK):
        total = sum(place * byte for place, byte in enumerate(data[at:at + 508], 1))
        mended[at + 508:at + 512] = struct.pack(">I", total)
    return bytes(mended)


def blocks_of(data):
    return [data[at:at + BLOCK] for at in range(0, len(data), BLOCK)]


def renumbered(blocks):
    return b"".join(block[:6] + struct.pack(">H", n) + block[8:] for n, block in enumerate(blocks))


def random_bytes(data, rng):
    return rng.randbytes(rng.choice([rng.randrange(20), rng.randrange(3 * BLOCK), BLOCK * rng.randrange(1, 5)]))


def random_behind_heads(data, rng):
    return sums_mended(b"".join(block[:8] + rng.randbytes(504) for block in blocks_of(data)))


def cut(data, rng):
    block = rng.randrange(len(data) // BLOCK + 1) * BLOCK
    return data[:max(0, block + rng.choice([-4, -1, 0, 1, 4, 5, 6, 8, 12, rng.randrange(BLOCK)]))]


def lengthened(data, rng):
    more = rng.choice([1, 3, BLOCK - 1, BLOCK, BLOCK + 1, LONGEST - len(data), LONGEST + 1 - len(data), 2 * LONGEST])
    return data + bytes(max(1, more))


def bit_flipped(data, rng):
    changed = bytearray(data)
    for _ in range(rng.choice([1, 1, 1, 2, 5])):
        changed[rng.randrange(len(data))] ^= 1 << rng.randrange(8)
    return bytes(changed)


def byte_changed(data, rng):
    changed = bytearray(data)
    for _ in range(rng.choice([1, 1, 1, 2, 5])):
        changed[rng.randrange(len(data))] = rng.choice([0, 1, 2, 5, 10, 41, 42, 63, 64, 255, rng.randrange(256)])
    return bytes(changed)


def head_changed(data, rng):
    changed = bytearray(data)
    block = rng.choice([0, rng.randrange(len(data) // BLOCK) * BLOCK])
    changed[block + rng.randrange(12)] = rng.choice([0, 1, 2, 16, 17, 41, 42, 64, 65, *b"TLOSPV", rng.randrange(256)])
    return sums_mended(changed)


def record_changed(data, rng):
    changed = bytearray(data)
    filled = [at for at in range(BLOCK, len(data), BLOCK) if data[at + 5]]
    for _ in range(rng.choice([1, 1, 2]) if filled else 0):
        block = rng.choice(filled)
        at = block + 8 + rng.randrange(data[block + 5]) * RECORD + rng.randrange(RECORD)
        changed[at] = rng.choice([0, 1, 2, 3, 9, 10, 255, rng.randrange(256)])
    return sums_mended(changed)


def blocks_shuffled(data, rng):
    blocks = blocks_of(data)
    at = rng.randrange(len(blocks))
    how = rng.choice(["double", "drop", "swap", "reverse"])
    if how == "double":
        blocks.insert(at, blocks[at])
    elif how == "drop":
        blocks.pop(at)
    elif how == "swap":
        other = rng.randrange(len(blocks))
        blocks[at], blocks[other] = blocks[other], blocks[at]
    else:
        blocks.reverse()
    return b"".join(blocks) if rng.random() < 0.5 else sums_mended(renumbered(blocks))


def too_many_records(data, rng):
    """Role chains in place of the records, more than there are rows; in half of the files one record is damaged as well."""
    chains = list(itertools.product([9], range(2), range(16), range(16), range(16), [0]))
    records = [bytes(chain) + struct.pack(">Ixx", 1) for chain in rng.sample(chains, rng.randrange(4100, MOST_RECORDS))]
    groups = [records[at:at + 41] for at in range(0, len(records), 41)]
    blocks = [data[:5] + bytes([0, 0, 0, 2, 20, 16, 0])]
    blocks += [data[:5] + bytes([len(group), 0, 0]) + b"".join(group) for group in groups]
    full = sums_mended(renumbered([block.ljust(BLOCK, b"\0") for block in blocks]))
    return full if rng.random() < 0.5 else record_changed(full, rng)


def with_sums(damage):
    return lambda data, rng: sums_mended(damage(data, rng))


DAMAGES = {
    "untouched": lambda data, rng: data,
    "random bytes": random_bytes,
    "random behind heads": random_behind_heads,
    "cut": cut,
    "lengthened": lengthened,
    "bits flipped": bit_flipped,
    "bits flipped, sums mended": with_sums(bit_flipped),
    "bytes changed": byte_changed,
    "bytes changed, sums mended": with_sums(byte_changed),
    "head changed": head_changed,
    "record changed": record_changed,
    "blocks shuffled": blocks_shuffled,
    "too many records": too_many_records,
}
