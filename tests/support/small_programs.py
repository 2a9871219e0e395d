"""Programs of few instructions, by their words."""

# Writes `Hi` and exits with 0.
HI = [
    0xD2A00020, 0x91008000, 0xD2800041, 0xD2800028, 0xD4000001, 0xD2800000, 0xD2800008, 0xD4000001,
    0x00006948,
]

# Tags a granule of the stack, stores and loads through the tagged pointer, then through the
# untagged.
UNTAGGED = [0xD2A7FFE0, 0x91403000, 0x9ADF1001, 0xD9200821, 0xF9000021, 0xF9400022, 0xF9400002]

# As the program before, and then an exit with the address that it loaded from.
UNTAGGED_EXIT = [
    0xD2A7FFE0, 0x91403000, 0x9ADF1001, 0xD9200821, 0xF9000021, 0xF9400022, 0xF9400002, 0xD2800008,
    0xD4000001,
]

# Tags a granule of the stack, writes it as output through the untagged pointer, and exits.
UNTAGGED_WRITE = [
    0xD2A7FFE0, 0x91403000, 0x9ADF1001, 0xD9200821, 0xD2800201, 0xD2800028, 0xD4000001, 0xD2800008,
    0xD4000001,
]

# Stores a pair and a tag to the second granule of the stack, loads from it through the tagged
# pointer, then through the untagged.
PAIR_WITH_TAG = [0xD2A7FFE0, 0x91403000, 0x9ADF1001, 0xD28000A2, 0x6900FC22, 0xF9400823, 0xF9400803]

# Loads with base SP at an offset, which is not checked, then pre-indexed, which is.
PRE_INDEXED = [0xD10083FF, 0x9ADF13E1, 0xD9200BE1, 0xF94003E2, 0xF8400FE2]

# Loads eight bytes across the end of a tagged granule.
ACROSS = [0xD2A7FFE0, 0x91403000, 0x9ADF1001, 0xD9200821, 0xF840C022]

# Writes the tag and the sixteen bytes of the stack's first granule: it exits with the tag.
LEFT_ON_THE_STACK = [
    0xD2A7FFE0, 0x91403000, 0xD9600003, 0xD2800201, 0xD2800028, 0xD4000001, 0xD378FC60, 0xD2800008,
    0xD4000001,
]

# Reads ten bytes of input to the stack, writes as many as it got, and exits with their number.
READS = [
    0xD2A7FFE0, 0x91403000, 0xD2800141, 0xD2800048, 0xD4000001, 0xAA0003E1, 0xD2A7FFE0, 0x91403000,
    0xD2800028, 0xD4000001, 0xD2800008, 0xD4000001,
]

# Exits with the steps that its slice has left after its first service.
COUNTS = [0xD2800148, 0xD4000001, 0xD2800008, 0xD4000001]

# Allocates 24 bytes, frees them, and loads through the old pointer.
USED_AFTER_FREE = [
    0xD2800300, 0xD2800068, 0xD4000001, 0xAA0003F3, 0xD2800088, 0xD4000001, 0xF9400261,
]

# Allocates 24 bytes, writes a byte of their header through an untagged pointer, and frees them.
CORRUPTS = [
    0xD2800300, 0xD2800068, 0xD4000001, 0xD2A24001, 0xD2800062, 0x39000022, 0xD2800088, 0xD4000001,
]

# As the program before, with a checksum that is right for the class that it writes.
FORGES_A_CLASS = [
    0xD2800300, 0xD2800068, 0xD4000001, 0xD2A24001, 0xD2800062, 0x39000022, 0xD2800262, 0x39001C22,
    0xD2800088, 0xD4000001,
]

# Allocates 24 bytes, makes them 48, then 49, and exits with 0.
GROWS = [
    0xD2800300, 0xD2800068, 0xD4000001, 0xD2800601, 0xD28000C8, 0xD4000001, 0xD2800621, 0xD4000001,
    0xD2800000, 0xD2800008, 0xD4000001,
]

# Allocates 24 bytes, makes them none, and once more through the old pointer.
SHRINKS_TWICE = [
    0xD2800300, 0xD2800068, 0xD4000001, 0xAA0003F3, 0xD2800001, 0xD28000C8, 0xD4000001, 0xAA1303E0,
    0xD4000001,
]

# Frees the null pointer, requests its size 64 times, and exits with 0.
CALLS_65_TIMES = [
    0xD2800813, 0xD2800000, 0xD2800088, 0xD4000001, 0xD2800108, 0xD4000001, 0xD1000673, 0xB5FFFFD3,
    0xD2800008, 0xD4000001,
]

# Allocates 24 bytes, and exits with the pages that are left.
PAGES_AFTER_ONE = [
    0xD2800300, 0xD2800068, 0xD4000001, 0xD2800168, 0xD4000001, 0xD2800008, 0xD4000001,
]

# Allocates 200000 bytes, stores there, frees them, yields, and loads from there.
LARGE_FREED = [
    0xD281A800, 0xF2A00060, 0xD2800068, 0xD4000001, 0xAA0003F3, 0xF9000273, 0xD2800088, 0xD4000001,
    0xD2800128, 0xD4000001, 0xF9400261,
]

# The word 0.
ILLEGAL = [0x00000000]

# Branches to 0x10001.
UNALIGNED = [0xD2A00020, 0x91000400, 0xD61F0000]

# Reads 24 bytes of input at a time, makes the call of the service whose number comes first, with
# the two numbers after it, and writes the eight bytes of what it returned; exits with 0 where the
# input ends.
CALLS_FROM_INPUT = [
    0xD2A7FFF4, 0xF2980014, 0xAA1403E0, 0xD2800301, 0xD2800048, 0xD4000001, 0xB4000140, 0xA9400288,
    0xF9400A81, 0xD4000001, 0xF9000E80, 0x91006280, 0xD2800101, 0xD2800028, 0xD4000001, 0x17FFFFF3,
    0xD2800008, 0xD4000001,
]

# Allocates 48, 80 and so on to 240 bytes, then 16, and exits with the last pointer.
SEVEN_SIZES = [
    0xD2800613, 0xAA1303E0, 0xD2800068, 0xD4000001, 0x91008273, 0xF104427F, 0x54FFFF61, 0xD2800200,
    0xD4000001, 0xD2800008, 0xD4000001,
]

# Yields, and exits with the steps that its slice has left after its next service.
YIELDS = [0xD2800128, 0xD4000001, 0xD2800148, 0xD4000001, 0xD2800008, 0xD4000001]

# Makes four chunks by malloc, calloc, realloc and memalign, writes to two of them, frees each,
# yields in between, and loads through the first pointer in the end.
CAREFUL = [
    0xD2800300, 0xD2800068, 0xD4000001, 0xAA0003F3, 0xF9000A60, 0xD2800500, 0xD2800068, 0xD4000001,
    0xAA0003F4, 0xAA1303E0, 0xD2800088, 0xD4000001, 0xD2800020, 0xD2800221, 0xD28000A8, 0xD4000001,
    0xAA0003F5, 0xAA1403E0, 0xD2801901, 0xD28000C8, 0xD4000001, 0xAA0003F6, 0xF90062D5, 0xAA1503E0,
    0xD2800088, 0xD4000001, 0xD2800128, 0xD4000001, 0xD2800800, 0xD2800C81, 0xD28000E8, 0xD4000001,
    0xAA0003F7, 0xAA1603E0, 0xD2800088, 0xD4000001, 0xAA1703E0, 0xD2800088, 0xD4000001, 0xF9400261,
]

# Stores the tag of its chunk to the chunk's first granule, and exits.
CARELESS = [0xD2800300, 0xD2800068, 0xD4000001, 0xD9200800, 0xD2800008, 0xD4000001]

# All of them but the one that needs an input.
NAMES = [
    "HI", "UNTAGGED", "UNTAGGED_EXIT", "UNTAGGED_WRITE", "PAIR_WITH_TAG", "PRE_INDEXED", "ACROSS",
    "LEFT_ON_THE_STACK", "READS", "COUNTS", "USED_AFTER_FREE", "CORRUPTS", "FORGES_A_CLASS",
    "GROWS", "SHRINKS_TWICE", "CALLS_65_TIMES", "PAGES_AFTER_ONE", "LARGE_FREED", "ILLEGAL",
    "UNALIGNED", "SEVEN_SIZES", "YIELDS", "CAREFUL", "CARELESS",
]
