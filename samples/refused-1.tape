# Not the mark of an image.
like ledger
bytes 0: TGX
