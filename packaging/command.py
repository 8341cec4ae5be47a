#!@PYTHON@
"""@NAME@: @ABOUT@, of the shared workbook with selective undo. `@NAME@ --help` lists its options."""
import os
import sys

HERE = os.path.dirname(os.path.realpath(__file__))
LIBRARY = os.path.normpath(os.path.join(HERE, "@LIBRARY@"))
PROGRAM = os.path.join(HERE, "workbook")

if LIBRARY not in sys.path:
    sys.path.insert(0, LIBRARY)
if os.access(PROGRAM, os.X_OK):
    os.environ.setdefault("WORKBOOK_PROGRAM", PROGRAM)

from workbook_client.@MODULE@ import main  # noqa: E402

sys.exit(main())
