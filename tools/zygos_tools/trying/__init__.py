"""A server that can lie, and clients: enough to try the other tools without a memcached."""
