"""The public calls that can find no memory, and the tests that refuse their growths."""
