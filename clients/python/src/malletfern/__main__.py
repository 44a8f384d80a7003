"""`python3 -m malletfern`: the command without an installation."""

import sys

from malletfern.cli import main

sys.exit(main())
