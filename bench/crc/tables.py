#!/usr/bin/env python3
"""Writes the tables of CRC-32C as crates/kb_batch/src/crc/tables.rt has them (`--c`: as the C program has them).

Table k holds, for each byte, the register that the byte and then k bytes of zeros leave behind it.
"""
import sys

POLYNOMIAL = 0x82F63B78
COUNT = 16


def byte_step(register):
    for _ in range(8):
        register = register >> 1 ^ (POLYNOMIAL if register & 1 else 0)
    return register


def tables():
    table = list(range(256))
    for _ in range(COUNT):
        table = [byte_step(register) for register in table]
        yield table


def rows(table):
    for at in range(0, 256, 8):
        yield "".join(" 0x%08x," % value for value in table[at : at + 8])[1:]


def main():
    if sys.argv[1:] == ["--c"]:
        print("static const uint32_t TABLES[%d][256] = {" % COUNT)
        for table in tables():
            print("{\n" + "\n".join(rows(table)) + "\n},")
        print("};")
        return
    print("//! The tables of CRC-32C: table `k` has, for each byte, the register that the byte and then `k` bytes of zeros leave,")
    print("//! where the register was zero before them.")
    print()
    print("#[rattlefmt::skip]")
    print("pub static TABLES: [[u32; 256]; %d] = [" % COUNT)
    for table in tables():
        print("    [")
        for row in rows(table):
            print("        " + row)
        print("    ],")
    print("];")


main()
