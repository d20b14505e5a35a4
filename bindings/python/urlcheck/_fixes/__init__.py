"""Fixes: texts that are written in place of links in documents."""
