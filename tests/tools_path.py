"""Lets tests import the modules of tools/, and says where the repository is."""
import pathlib
import sys

TOP = pathlib.Path(__file__).resolve().parent.parent
sys.dont_write_bytecode = True
sys.path.insert(0, str(TOP / "tools"))
