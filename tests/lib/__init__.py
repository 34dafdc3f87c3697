"""What the tests share: the program, disks and their writers, and what compares answers with those of reference/shardscrub.py."""
import sys
from pathlib import Path

sys.path.insert(0, str(Path(__file__).resolve().parent.parent.parent))
