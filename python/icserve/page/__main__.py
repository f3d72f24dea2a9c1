"""`python3 -m icserve.page` is `icserve-page`."""

import sys

from . import main

sys.exit(main())
