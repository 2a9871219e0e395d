"""The rows of the table of encodings, as the tests draw words of them."""
