"""The instruction set as data, and what is written from it."""
