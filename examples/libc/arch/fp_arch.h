/* No register of floating point: musl's own plain C holds values back. */
