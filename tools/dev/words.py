"""How the scripts take their words."""
from __future__ import annotations

import argparse
from typing import Optional


def parser_of(text: Optional[str]) -> argparse.ArgumentParser:
    """Takes the words of a script that a text describes; `--help` writes it as it stands."""
    return argparse.ArgumentParser(
        description=text, formatter_class=argparse.RawDescriptionHelpFormatter)
