"""`python3 -m filgwesha TENANT [SESSION]` is the shell."""

import sys

from .shell import main

sys.exit(main())
