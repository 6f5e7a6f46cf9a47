"""Tests of worlds in files: their tables, damage, migration, dumps, and stops."""
