"""Packages of Debian, and the list of what is inside of them."""
