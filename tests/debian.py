"""Debian's Python packages, for a python3 of the same version that isn't Debian's own."""
import importlib
import sys

sys.path.append("/usr/lib/python3/dist-packages")


def module(name):
    """A module of a package, or None if the package isn't installed."""
    try:
        return importlib.import_module(name)
    except ImportError:
        return None
