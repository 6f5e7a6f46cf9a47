"""Tests of the client and of the programs that copy and watch a world, in tools/."""
