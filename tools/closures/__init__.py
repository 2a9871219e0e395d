"""What a clause of a contract reaches: definitions of specs/, types and constants of src/."""
