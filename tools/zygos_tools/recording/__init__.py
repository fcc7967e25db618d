"""Recordings of clients and servers: by a proxy, and of recorded packets."""
