"""Programs by Unicorn's package of Python, beside those of examples/embed/from_unicorn."""
