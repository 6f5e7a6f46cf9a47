"""A front for people to the world that `moo serve` keeps: accounts, tokens, and a journal of every accepted batch."""
