# The tape mark behind the header labels is missing, so a data block stands where a label may.
like ledger
without item 3
