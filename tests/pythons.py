"""A Python that has a package beyond its own library."""
import contextlib
import subprocess
import sys
from typing import Optional

# Where Debian's packages are found.
DEBIAN_PYTHON = "/usr/bin/python3"


def python_with(module: str) -> Optional[str]:
    """The Python of this process where it has the module, else Debian's where that has it."""
    for python in (sys.executable, DEBIAN_PYTHON):
        with contextlib.suppress(OSError):
            if subprocess.run([python, "-c", f"import {module}"], stderr=subprocess.DEVNULL, check=False).returncode == 0:
                return python
    return None
