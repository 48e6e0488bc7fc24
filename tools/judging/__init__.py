"""What is judge.py's alone: plans as jobs, and the verdicts on them."""
