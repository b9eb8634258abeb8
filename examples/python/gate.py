#!/usr/bin/env python3
"""gate.py FILE..: an admission gate, by the package of packaging/python. Each file is let in exactly where it is a valid module, within the limits for
modules of strangers."""
import sys

import ruthvelka


def main():
    status = 0
    for name in sys.argv[1:]:
        with open(name, "rb") as file:
            data = file.read()
        try:
            it = ruthvelka.validate(data, ruthvelka.WasmFeatures.STANDARD | ruthvelka.WasmFeatures.CRATE_LIMITS)
            print(f"{name}: ok types {it.types} functions {it.functions} imports {it.imports} exports {it.exports}")
        except ruthvelka.Refused as why:
            print(f"{name}: {why}")
            status = 1
    return status


if __name__ == "__main__":
    sys.exit(main())
