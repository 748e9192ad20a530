"""The parts of checks/check_program: the cases, by what they are about, and what makes the calls and compares the answers."""
from . import files, progress, reports, sizes, workers
from .calls import PARTS, Check

__all__ = ["PARTS", "Check", "files", "progress", "reports", "sizes", "workers"]
