"""Measures: what the programs take, next to other programs that do the same."""
