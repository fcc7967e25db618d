"""Captures that are played to a server."""
