"""The version of the module, and of the library that it takes."""

__version__ = "1.4.0"
