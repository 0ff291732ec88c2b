#!/usr/bin/env python3
"""`sorachest.hub` under its old name."""
import sys

import sorachest.hub

if __name__ == "__main__":
    sys.exit(sorachest.hub.main())
sys.modules[__name__] = sorachest.hub
