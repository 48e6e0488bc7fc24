"""What judge.py and rows.py share: jobs, who works on them, what a result depends on, and the table of results."""
