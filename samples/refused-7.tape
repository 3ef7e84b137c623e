# Nine bytes can't be cut into records of ten.
like ledger
item 4: block 012345678
