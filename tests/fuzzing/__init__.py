"""Hostile cases by a seed, for tests/fuzz: what they hold, what must come of them by the model, and what comes."""
