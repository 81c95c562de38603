"""Fills a data folder with partitions of the tenant a, 64 of each topic, the first one where no number is given: files of 16 MiB, each of
whole batches.

    fill.py FOLDER BATCH_BYTES TOTAL_BYTES [PARTITIONS]

The folder has the catalog already. Each batch has one record and no producer; all batches are the same bytes but for their offset.
"""

import os
import struct
import sys

SEGMENT = 16 << 20
TABLE = []
for byte in range(256):
    for _ in range(8):
        byte = byte >> 1 ^ (0x82F63B78 if byte & 1 else 0)
    TABLE.append(byte)


def castagnoli(data):
    crc = 0xFFFFFFFF
    for byte in data:
        crc = crc >> 8 ^ TABLE[(crc ^ byte) & 255]
    return crc ^ 0xFFFFFFFF


def varint(number):
    number = number << 1 ^ number >> 63
    out = b""
    while number > 127:
        out += bytes([number & 127 | 128])
        number >>= 7
    return out + bytes([number])


def batch(size):
    value = b"x" * (size - 61 - 12)
    record = b"\0" + varint(0) + varint(0) + varint(-1) + varint(len(value)) + value + varint(0)
    records = varint(len(record)) + record
    body = struct.pack(">hiqqqhii", 0, 0, 0, 0, -1, -1, -1, 1) + records
    head = struct.pack(">ib", 0, 2) + struct.pack(">I", castagnoli(body))
    return struct.pack(">i", len(head) + len(body)) + head + body


def header(base, partition):
    fields = b"KBSG" + struct.pack(">hhqqih1sq", 2, 0, base, partition // 64, partition % 64, 1, b"a", 0)
    return fields + struct.pack(">I", castagnoli(fields))


def fill(folder, bytes_of, total, partition, number):
    """Writes a partition from a file number on, and answers the next one."""
    offset = 0
    while total > 0:
        with open(f"{folder}/{number:020}.seg", "wb") as out:
            out.write(header(offset, partition))
            for _ in range(max(1, min(SEGMENT, total) // (len(bytes_of) + 8))):
                out.write(struct.pack(">q", offset) + bytes_of)
                offset += 1
                total -= len(bytes_of) + 8
        number += 1
    return number


def main():
    folder, size, total = sys.argv[1], int(sys.argv[2]), int(sys.argv[3])
    partitions = int(sys.argv[4]) if len(sys.argv) > 4 else 1
    bytes_of, number = batch(size), 1
    for partition in range(partitions):
        number = fill(folder, bytes_of, total // partitions, partition, number)


main()
