"""The pages that people read, made of templates."""
