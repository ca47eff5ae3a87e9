"""Scripts that test: README.md. Modules of packaging/ and examples/ are found from here."""
import os
import sys

TOP = os.path.dirname(os.path.dirname(os.path.abspath(__file__)))
# scripts work in other folders too
if os.environ.get("V7_BUILD"):
    os.environ["V7_BUILD"] = os.path.abspath(os.environ["V7_BUILD"])
sys.path[1:1] = [os.path.join(TOP, folder) for folder in ("packaging/python", "packaging", "examples")]
