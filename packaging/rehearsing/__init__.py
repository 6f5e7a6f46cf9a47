"""What packaging/rehearse is made of: machines, the blocks of the page, and clients."""
