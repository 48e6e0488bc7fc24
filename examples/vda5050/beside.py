"""Puts examples/fleet on the path: of that folder come agents and their locks, black boxes, letters, the client of MQTT and the broker."""
import pathlib
import sys

HERE = pathlib.Path(__file__).resolve().parent
FLEET = HERE.parent / "fleet"
# Behind this folder, whose own names go before.
sys.path.append(str(FLEET))
