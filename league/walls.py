"""The seeds of a league, and the walls that a seed shuffles, as the server's rules say them."""
from __future__ import annotations

import hashlib

KINDS = [f"{number}{suit}" for suit in "mps" for number in range(1, 10)] + list("ESWNPFC")
TILES = [kind for kind in KINDS for _ in range(4)]
TILES_WITH_RED = [tile for kind in KINDS for tile in [kind] * 3 + [kind + "r" if kind[0] == "5" else kind]]
WALLS = 200  # of a served game
MASK = 0xFFFFFFFF
ROUNDS = [(0, 4, 8, 12), (1, 5, 9, 13), (2, 6, 10, 14), (3, 7, 11, 15), (0, 5, 10, 15), (1, 6, 11, 12), (2, 7, 8, 13), (3, 4, 9, 14)]


def seed_of(league_seed: str, block: int) -> str:
    """The seed of a block of four games, counted from 0: the SHA-256 of these words, the league's 32 bytes and the block's number."""
    return hashlib.sha256(b"riichi_table league" + bytes.fromhex(league_seed) + block.to_bytes(8, "big")).hexdigest()


def commitment_of(league_seed: str) -> str:
    """What may be told of the league's seed before the end: its SHA-256."""
    return hashlib.sha256(bytes.fromhex(league_seed)).hexdigest()


def chacha_block(key: list[int], counter: int, stream: int) -> list[int]:
    """The sixteen words of one block of ChaCha20, with a counter and a stream number of 64 bits each."""
    start = [0x61707865, 0x3320646E, 0x79622D32, 0x6B206574, *key]
    start += [counter & MASK, counter >> 32, stream & MASK, stream >> 32]
    x = list(start)
    for _ in range(10):
        for a, b, c, d in ROUNDS:
            x[a] = (x[a] + x[b]) & MASK
            x[d] ^= x[a]
            x[d] = (x[d] << 16 | x[d] >> 16) & MASK
            x[c] = (x[c] + x[d]) & MASK
            x[b] ^= x[c]
            x[b] = (x[b] << 12 | x[b] >> 20) & MASK
            x[a] = (x[a] + x[b]) & MASK
            x[d] ^= x[a]
            x[d] = (x[d] << 8 | x[d] >> 24) & MASK
            x[c] = (x[c] + x[d]) & MASK
            x[b] ^= x[c]
            x[b] = (x[b] << 7 | x[b] >> 25) & MASK
    return [(end + begin) & MASK for end, begin in zip(x, start)]


def wall_of(seed: str, number: int, red: bool = False) -> list[str]:
    """Wall number (from 0) of a seed of 64 hex digits, with red fives or without: its tiles from the first place to the last."""
    data = bytes.fromhex(seed)
    key = [int.from_bytes(data[place:place + 4], "little") for place in range(0, 32, 4)]
    words = [word for counter in range(17) for word in chacha_block(key, counter, number)]
    tiles = list(TILES_WITH_RED if red else TILES)
    for turn, place in enumerate(range(135, 0, -1)):
        other = (words[2 * turn] | words[2 * turn + 1] << 32) % (place + 1)
        tiles[place], tiles[other] = tiles[other], tiles[place]
    return tiles
