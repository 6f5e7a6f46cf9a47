"""Helpers of the tests, and of the measurements in bench/. The modules of tools/ are known to them."""
import sys
from pathlib import Path

TOOLS = Path(__file__).resolve().parents[2] / "tools"
if str(TOOLS) not in sys.path:
    # No folder of compiled modules is left in tools/.
    sys.dont_write_bytecode = True
    sys.path.insert(0, str(TOOLS))
