"""Streams for tests: generated, of vectors, and recorded; and readers of what is generated from,
vectors and the trait of handlers."""
