"""`python3 -m buszlogem`."""

import sys

from .cli import main

sys.exit(main())
