# Written by tools/isa.py from isa/a64.absent. Do not edit.
"""The mnemonics that a disassembler has for words that are no instruction of the profile."""

FAMILIES = {
    "a prefetch": "prfm prfum",
    "pointer authentication that is no hint": "pacga",
    "a checksum (CRC32)": "crc32b crc32h crc32w crc32x crc32cb crc32ch crc32cw crc32cx",
    "an access to the tags of many granules, which no program at EL0 has": "ldgm stgm stzgm",
    "common short sequences (FEAT_CSSC)": "abs cnt ctz smax smin umax umin",
}

ABSENT = {name for names in FAMILIES.values() for name in names.split()}
