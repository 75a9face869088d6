"""Cases of tests/crash: a server over a journal, what ends it, and what the file tells behind that."""
