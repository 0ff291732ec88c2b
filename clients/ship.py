#!/usr/bin/env python3
"""`sorachest.ship` as a program of the clone."""
import sys

import sorachest.ship

if __name__ == "__main__":
    sys.exit(sorachest.ship.main())
