"""The numbers by which messages and tapes name a plan."""
import secrets

MOST_NUMBER = 4_294_967_295


def drawn_number() -> int:
    """A number from the system's randomness. A broker, a late message or a tape may still hold what an earlier run said under its number, so
    no run reuses one."""
    return secrets.randbelow(MOST_NUMBER + 1)
