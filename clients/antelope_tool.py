"""`sorachest.tool` under its old name, and with the name of the tool before its work."""
from sorachest import tool


def run(_, work, *errors):
    return tool.run(work, *errors)
