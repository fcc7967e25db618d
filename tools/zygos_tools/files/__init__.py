"""Captures, journals and replies files: how they are read, and how they are written."""
