"""The rules about cells and notes: each is a file with its definition as the docstring, and `rule`, which returns
the suspects."""
