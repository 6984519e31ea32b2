"""Tests of sources, pages and records, which need no program."""
