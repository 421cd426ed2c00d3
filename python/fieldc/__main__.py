"""`python3 -m fieldc` is the command `fieldc`."""

from __future__ import annotations

import sys

from .command import main

sys.exit(main())
