"""Values in the scripts of a page."""
import json


def as_json(value: object) -> str:
    """JSON that can stand in a script: no `<` begins anything there."""
    return json.dumps(value, separators=(",", ":")).replace("<", "\\u003c")
