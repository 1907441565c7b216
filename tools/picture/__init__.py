"""The pictures of a run: rows, what is drawn in them, and the files that are made of it."""
