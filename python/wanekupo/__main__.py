"""`python3 -m wanekupo`: the command line."""

import sys

from wanekupo.cli.main import main

sys.exit(main())
