"""Blocks of images as types: which ones, and the crate of them."""
