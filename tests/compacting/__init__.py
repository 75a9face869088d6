"""Cases of tests/compact: journals that are made small, and servers over what is left."""
