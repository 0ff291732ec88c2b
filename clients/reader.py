#!/usr/bin/env python3
"""`sorachest.reader` under its old name."""
import sys

import sorachest.reader

if __name__ == "__main__":
    sys.exit(sorachest.reader.main())
sys.modules[__name__] = sorachest.reader
