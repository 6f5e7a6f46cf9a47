"""Tests of tools/moo-shell."""
