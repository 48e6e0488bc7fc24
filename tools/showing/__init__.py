"""Shows a plan or a run: what `mapf` says of it, as a page or as pictures of it."""
