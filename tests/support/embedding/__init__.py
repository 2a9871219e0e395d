"""Programs that make the library's calls, in C, C++, Rust and Python, and what they must answer."""
