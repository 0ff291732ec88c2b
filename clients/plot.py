#!/usr/bin/env python3
"""`sorachest.plot` under its old name."""
import sys

import sorachest.plot

if __name__ == "__main__":
    sys.exit(sorachest.plot.main())
sys.modules[__name__] = sorachest.plot
