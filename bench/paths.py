"""What a bench imports first, so that it finds `support` in the folder tests."""

import sys
from pathlib import Path

sys.path.insert(1, str(Path(__file__).resolve().parents[1] / "tests"))
