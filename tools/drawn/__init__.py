"""Programs and requests that are drawn, and a second reading of what is said of them: that of the package in python/."""

import sys
from pathlib import Path

sys.path.insert(0, str(Path(__file__).resolve().parent.parent.parent / "python"))
