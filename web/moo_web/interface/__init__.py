"""The interface for programs: its routes as a table and as OpenAPI, what is sent to it, and the feed of changes."""
