"""Runs tests, named as unittest takes them, as if numpy, matplotlib and dask.distributed weren't installed."""

import sys
import unittest
from pathlib import Path

if __name__ == "__main__":
    sys.modules.update(dict.fromkeys(("numpy", "matplotlib", "distributed")))
    sys.path.insert(0, str(Path(__file__).resolve().parent))
    unittest.main(module=None)
