"""A model of the whole program, written from the documents in docs/ and apart from the program's code.

It knows lists of accepted events, sets of pairs of states and no more, and answers slowly what the program has to answer:
bytes of outputs and of answers, and statuses. `cases.tables` has the states in the order of their codes and the profile's
rows, `items.MOST_TYPES` is the most types of an event."""
