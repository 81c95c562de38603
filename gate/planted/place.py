"""The repository that a script of the gate works in."""
import os


def enter(words: list) -> list:
    """Goes to the top of the repository, the one that this file is in or that of `--root DIR`, and gives the other words."""
    root, rest = os.path.dirname(os.path.dirname(os.path.dirname(os.path.realpath(__file__)))), list(words)
    if "--root" in rest[:-1]:
        at = rest.index("--root")
        root = rest[at + 1]
        del rest[at : at + 2]
    os.chdir(root)
    return rest
