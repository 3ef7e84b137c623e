# HDR1 says day 000 of the year 85.
like ledger
item 1 byte 42:  85000
