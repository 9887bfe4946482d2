"""python3 -m jangoripu: the command."""
import sys

from .command import main

sys.exit(main())
