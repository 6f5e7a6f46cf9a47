"""Who may come in: people with their accounts, passwords and sessions, and how often somebody may try."""
