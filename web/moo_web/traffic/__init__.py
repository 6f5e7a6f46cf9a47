"""What one peer or one person may take of the front: connections, bytes in memory, turns and work."""
