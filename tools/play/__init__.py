"""The page in which a schedule is built: what it asks of the program, and the server that it asks."""
