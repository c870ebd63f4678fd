"""The parts of tests/run: each a list of checks, which are called side by side."""
