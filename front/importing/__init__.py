"""Makes logs of the traces of real programs: the command `import` of the script `pochvean`."""
from .command import main

__all__ = ["main"]
