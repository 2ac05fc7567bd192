"""Runs the command by `python3 -m cqd_client`."""
import sys

from .command import main

sys.exit(main())
