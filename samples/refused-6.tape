# EOF1 says two blocks, and there is one.
like ledger
item 6 byte 55: 000002
