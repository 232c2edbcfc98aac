"""netrev's version, for pyproject.toml, the Makefile, the man page and `nrdb --version`."""

VERSION = "1.0.0"
