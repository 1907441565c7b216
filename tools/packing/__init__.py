"""A release: the tarball, what it says of itself, and how one is made of a checkout."""
