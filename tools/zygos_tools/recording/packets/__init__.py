"""Captures made of recorded packets."""
