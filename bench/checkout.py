"""The modules of this checkout, for the scripts of bench/: imported before those of other folders (checks/paths.py)."""
import os
import runpy

TOP = os.path.dirname(os.path.dirname(os.path.abspath(__file__)))
runpy.run_path(os.path.join(TOP, "checks", "paths.py"))
