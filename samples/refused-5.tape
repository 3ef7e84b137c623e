# HDR1 says that not everyone may read the file.
like ledger
item 1 byte 54: A
