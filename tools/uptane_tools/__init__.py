"""The tools of uptane_desk, in folders by purpose. `tools/run` lists them, `tools/run NAME` runs
one.
"""
from pathlib import Path

# where the repository is, or what the package for operators has of it
TOP = Path(__file__).resolve().parents[2]
RUN = str(TOP / "tools" / "run")
