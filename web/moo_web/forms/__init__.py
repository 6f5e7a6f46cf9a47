"""The pages by which people change the world: what is typed, the calls that are made of it, the preview, and doing it once."""
