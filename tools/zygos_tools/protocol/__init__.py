"""The text protocol of memcached: commands, answers, uniques, and the profile's plain model."""
