"""The journal of accepted batches: written before and after each batch, mended, indexed, replayed, followed and copied."""
