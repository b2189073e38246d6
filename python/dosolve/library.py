"""The shared library by itself, under the name that docs/LIBRARY.md has for it."""
from .solver.library import Library, Payoffs, Worst, find_library

__all__ = ["Library", "Payoffs", "Worst", "find_library"]
