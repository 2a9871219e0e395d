"""mte_run as a WebAssembly module, and a page of one file with it inside."""
