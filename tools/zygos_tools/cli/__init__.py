"""What the commands of tools/ share: their words, their inputs, their lines on standard error, and their ends."""
