"""The version of this package, which is that of the repository's file VERSION."""

VERSION = "0.3.0"
