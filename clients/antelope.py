#!/usr/bin/env python3
"""`sorachest` under its old name; as a program it is `python3 -m sorachest`."""
import sys

import sorachest
import sorachest.__main__

if __name__ == "__main__":
    sys.exit(sorachest.__main__.main())
sys.modules[__name__] = sorachest
