"""The command by itself: python3 -m front.importing TRACE LOG."""
import sys

from . import main

sys.exit(main(sys.argv[1:]))
