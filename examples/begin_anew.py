#!/usr/bin/env python3
"""`tools/tundelca_ctl.py begin-anew` by its old name: python3 examples/begin_anew.py keep|compare|files|publish .."""
import sys

import built  # noqa: F401  before what lies in tools/
import tundelca_ctl

sys.exit(tundelca_ctl.main(["begin-anew", *sys.argv[1:]]))
