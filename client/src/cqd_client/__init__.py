"""A client of cqd: uploads source files, asks what is duplicated in them, and whether the project passes its gate."""

__version__ = "1.0.0"
