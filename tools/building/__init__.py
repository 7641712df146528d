"""Proves and builds a crate and all that it stands on: the parts of tools/build."""
