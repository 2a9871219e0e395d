"""The border to C: its numbers, structs and calls, in the crates and in the files for embedders."""
