"""The answers of two servers to one capture, and why they differ."""
