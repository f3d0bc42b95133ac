"""`python3 -m vpoker` is `vp`."""
from .commands.main import main

main()
