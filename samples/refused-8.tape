# The record that goes on on the second reel was never begun: a 0 in place of its 1.
like messages
item 4 byte 15: 0
