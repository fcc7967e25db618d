"""What is in files of zygos, for people: lines, counts and drawings, and captures made of text."""
