"""Tests of what moo has of LambdaMOO: the converters of its database files, and its built-in functions."""
