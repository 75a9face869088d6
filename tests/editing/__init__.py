"""The edits that a check must refuse: wrong bodies of functions, each with the function whose contract refuses it."""
