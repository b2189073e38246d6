"""What docs/FORMATS.md documents, for the scripts beside this one: its reader is tests/style/formats.py."""
import sys
from pathlib import Path

sys.path.append(str(Path(__file__).resolve().parents[1] / "style"))
from formats import TOP, Formats  # noqa: E402

__all__ = ["PAGE", "TOP", "Formats"]
PAGE = TOP / "docs" / "FORMATS.md"
