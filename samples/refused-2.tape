# The end of the reel is torn off.
like ledger
cut 3
