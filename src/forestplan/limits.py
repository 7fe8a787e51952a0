"""The programs' limits. crates/ has each of them as a constant, and a test compares the numbers."""

MAX_NODES = 20000
MAX_EDGES = 400000
MAX_DEGREE = 1023
MAX_CHANNEL = 2048
# How many channels may be barred at a node.
MAX_BARS = 1024
MAX_WORKERS = 64
# How often recolouring may choose anew.
MAX_PASSES = 64
