"""Where the repository and what was built of it stand."""
import pathlib

TOP = pathlib.Path(__file__).resolve().parents[2]
CRATES, DOCS = TOP / "crates", TOP / "docs"
PROGRAM = CRATES / "classck/out/classck"
