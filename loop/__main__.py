"""Run as `python3 loop explore|show|page ..`, which is what the script monkeydb does."""

import os
import sys

sys.path.insert(0, os.path.dirname(os.path.abspath(__file__)))

from monkeyloop.command import main  # noqa: E402

sys.exit(main())
