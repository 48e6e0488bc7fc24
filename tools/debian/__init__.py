"""Makes Debian's package: what it contains, its manual pages, and what Debian is told of it."""
