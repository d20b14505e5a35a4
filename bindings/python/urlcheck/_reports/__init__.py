"""Reports: what is wrong with links, in each format, and which of it is said."""
