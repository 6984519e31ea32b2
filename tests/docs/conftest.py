"""What the tests of the pages read besides the program."""

INPUTS = ("README.md", "docs", "operate", "web", "images")
