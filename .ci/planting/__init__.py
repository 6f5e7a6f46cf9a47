"""Bugs that are planted inside the bodies of a crate, under the proofs that these have, to see which stay proved."""
