"""Tests of texts of batches, of their replies, and of the command line."""
