"""Sentences that users read, and that the tests of several modules look for. Each is written here only."""

# Why an entry of a run isn't the one that comes next.
PULSE = "a node makes its next pulse once it has said safe and has the safes of all its neighbours"
SAFE = (
    "safe P is said once in each pulse P but the last, to each neighbour, once each payload that it sent in P is "
    "acknowledged"
)
ACK = "a payload is acknowledged with its own pulse as soon as it is taken"
NO_ACK = "it can't have said safe yet: it lacks the acknowledgement of pulse {} {}"
# What is wrong with a user's own program.
OTHERWISE = "does something else the second time: does it use chance other than `me.random`"
OUTSIDE = "changes the variable `{}` outside `me`"
KEEP = ": keep everything in `me`"
NOT_COPIED = "what `me` keeps can't be copied and compared"
NO_TRUTH = "it must be True, False, or what isn't right in words"
NO_LINE = "`result` returns {}: it must be words on one line"
NO_RETURN = "it returns nothing, and sends with `me.send`"
NO_PORT = "`me.send` has {} as its port: the node's ports are 0 to 1"
NO_WORD = "a message begins with a word of small letters, and {} is none"
