"""The base of the errors that netrev's Python code raises."""


class NetrevError(Exception):
    """An error of the library or of its commands. Its message, if it has one, is for the user."""
