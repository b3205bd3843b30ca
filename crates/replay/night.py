#!/usr/bin/env python3
"""Writes the recorded night of `stdin`: python3 crates/replay/night.py > crates/replay/stdin

Each record is a 4-byte length and as many bytes as the limit. Every refusal 2 to 12, each kind, a repeat, a discovery
between, refusals at later headers, a length over the limit, an answer and a message of the limit, four in flight with
repeats of all four, an older and an early one, tags past 15, eleven restarts of a loader that counts from nought each
time, and a short tail are in it.
"""
import struct
import sys

WORDS = 2243
LIMIT = 4 * WORDS
MEMORY = 1024


def record(words=(), length=None, tail=b''):
    body = b''.join(struct.pack('<I', w) for w in words) + tail
    n = len(body) if length is None else length
    return struct.pack('<I', n) + body.ljust(LIMIT, b'\xee')


def write(tag, address, word, discovery=0):
    return [0x80010F10 + tag + discovery, address, word]


def header(low, count, last):
    return low + (count << 16) + (0x80000000 if last else 0)


def full(low, beside, data):
    """Commands at address 0, as long as memory but the last; counts and `beside` words for each make up the limit."""
    words, room = [], WORDS
    while room:
        count = min(MEMORY, room - beside)
        room -= beside + count
        words += [header(low, count, room == 0), 0, *data(count)]
    return words


night = [
    record(),                                                       # 2: no bytes
    record(tail=b'\x10\x0f\x01'),                                   # 2: three bytes
    record(length=LIMIT + 1),                                       # 2: a length over the limit
    record(write(1, 4, 0xFEEDC0DE)),                                # 11: a fresh controller takes only tag 0
    record(write(0, 4, 0xFEEDC0DE)),                                # new: tag 0
    record(write(0, 4, 0xFEEDC0DE)),                                # the same again: a repeat
    record(write(0, 4, 0, discovery=0x80)),                         # a discovery write between
    record([0x80020080, LIMIT, 0]),                                 # the fixed discovery
    record(write(0, 8, 0x11111111)),                                # 12: the same tag, another body
    record(write(0, 4, 0xFEEDC0DE) * 2),                            # 9: words after LAST, before 12
    record([0x00010F10, 4, 0xFEEDC0DE] + write(0, 8, 1)),           # 12: a longer body
    record(write(2, 4, 0)),                                         # 11: early
    record([0x80010F11]),                                           # 3: no address
    record([0x80010F51, 4]),                                        # 3: half an address
    record([0x8002FF11, 4, 1]),                                     # 3: half a body
    record([0x00010F11, 4, 1]),                                     # 3: LAST missing
    record([0x00010F11, 0, 1, 0x80010F12, 4, 2]),                   # 4: another tag midway
    record([0x80000031]),                                           # 5: an answer
    record([0x90010F11, 4, 0]),                                     # 6: a reserved bit
    record([0x80000F11, 4]),                                        # 7: count 0
    record([0x80020F11, 4, 0, 0]),                                  # 8: last enables 0
    record([0x80010F11, 4, 0, 0]),                                  # 9: a word after LAST
    record([header(0x21, WORDS, True), 0]),                         # 10: one word too long
    record([header(0x20, WORDS, True), 0]),                         # 10: of a repeat too
    record([0x00010F11, 0, 1] * 4 + [0x80010F12, 4, 2]),            # 4 at 12: another tag in the fifth header
    record([0x00010F11, 0, 1, 0x80010F11, 4, 2, 0]),                # 9 at 3: the word of LAST
    record([0x00010F11, 0, 1] * 2),                                 # 3 at 6: no third header
    record([0x80010021, 4]),                                        # a read of the word
    record([0x80011121, 4]),                                        # 12: another byte 1
    record(full(0x22, 1, lambda count: ())),                        # reads: an answer of the limit
    record([0x00000003, 0x80020003, LIMIT, 0]),                     # two NOPs
    record([0x80010F54, 4, 1, 0]),                                  # Error: an address past 2^32
    record([0x00010F15, 0, 0x11111111, 0x80010F15, 0x1000, 2]),     # OK, then Error
    record([0x80033C16, 0x10, 1, 2, 3]),                            # a write under enables
]
night += [record(write(tag, 0x20 + 4 * tag, tag)) for tag in (7, 8, 9, 10)]      # four in flight
night += [record(write(tag, 0x20 + 4 * tag, tag)) for tag in (9, 7, 10, 8)]      # repeats of all four, out of order
night += [
    record(full(0xFF1B, 2, range)),                                 # the next, tag 11: writes, a message of the limit
    record(write(7, 0x20 + 4 * 7, 7)),                              # 11: an older one now
    record(write(13, 0x40, 13)),                                    # 11: an early one
    record(write(8, 0, 8)),                                         # 12: an older one of the four, another body
]
night += [record(write(tag % 16, 0x40, tag)) for tag in range(12, 17)]           # past 15 to 0, the loader's first row
night += [record(write(14, 0x40, 14))]                                           # a repeat from before 15
night += [record(write(0, 0x40, 0xA0 + life)) for life in range(11)]             # 12: eleven restarts from tag 0
night += [record(write(0, 0x40, 16)), record([0x80010021, 0x40])]                # that row again: a repeat; it stands
night += [b'\x04\x00\x00\x00cut']                                                # a short tail
sys.stdout.buffer.write(b''.join(night))
