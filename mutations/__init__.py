"""Deliberate bugs: in the crates, in the definitions, and where no contract speaks."""
