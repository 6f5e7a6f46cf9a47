"""The checker on a copy of a crate: what it is given, what it says of changed texts, and which mutants still mean something."""
