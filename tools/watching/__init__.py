"""Watches a fleet: looks at its tapes again and again, since when each is as it is, and what that
means."""
