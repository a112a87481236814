"""The cases that are kept as folders in tests/cli."""
import pathlib

from helpers.harness import folder

CLI = pathlib.Path(__file__).resolve().parent.parent / "cli"


def cases():
    return [folder(path) for path in sorted(CLI.iterdir()) if path.is_dir()]
