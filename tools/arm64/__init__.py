"""Programs and the library for C for Linux on arm64, of what is proved for x86-64."""
