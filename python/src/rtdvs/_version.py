"""The version of the package, which is that of the program and of its library."""

__version__ = "1.1"
