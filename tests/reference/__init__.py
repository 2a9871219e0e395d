"""A second, slow checker: what `mte_run --check` says, by the rules of its page."""
