# The smallest whole set: one reel, one file, one record.
VOL1 volume=GATE01
HDR1 file=LEDGER set=SET001 created=' 85335'
HDR2 format=F block=00020 record=00010
mark
block 0123456789
mark
EOF1
EOF2
mark
mark
end
