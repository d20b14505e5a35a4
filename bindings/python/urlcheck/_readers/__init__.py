"""Readers: the links of documents of each kind, with their places."""
