"""Tests of the built program, by subject. `python3 -m unittest` at the top of the repository runs them all."""
