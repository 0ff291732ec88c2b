#!/usr/bin/env python3
"""`sorachest.table` under its old name."""
import sys

import sorachest.table

if __name__ == "__main__":
    sys.exit(sorachest.table.main())
sys.modules[__name__] = sorachest.table
