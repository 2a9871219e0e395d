"""The counts of a run by `mte_run --profile` (counts), and the forms of them that other tools read
(forms). Nothing here needs the library."""
