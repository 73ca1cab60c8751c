"""`python3 -m zurtkvani_client` is the command `zurtkvani`."""
import sys

from .command import main

sys.exit(main())
