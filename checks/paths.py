"""Where this checkout lies, and its modules by their names. The one file that changes `sys.path`.

A script of checks/ has it by `cluster` or `runner`, one of examples/ by `built`, one of bench/ by `checkout`: they
import that before what lies in another folder. The folder of the script that was started comes first.
"""
import os
import sys

TOP = os.path.dirname(os.path.dirname(os.path.abspath(__file__)))
FOLDERS = ("tools", "examples", "checks", "bench")

sys.dont_write_bytecode = True
sys.path += [path for path in (os.path.join(TOP, folder) for folder in FOLDERS) if path not in sys.path]
