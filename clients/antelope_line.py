"""`sorachest.line` under its old name."""
import sys

import sorachest.line

sys.modules[__name__] = sorachest.line
