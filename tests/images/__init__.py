"""Tenants with known faults, as sources and as the images that two compilers made of them."""
