"""Cases of tests/scale: a server at a city's scale, whose calls of the system are read as they come."""
