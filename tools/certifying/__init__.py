"""What is rows.py's alone: scenarios as jobs, and what `mapf rows` says of them."""
