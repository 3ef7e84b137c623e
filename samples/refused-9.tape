# One file more than a set may have.
VOL1 volume=GATE01
repeat 65
HDR1 file=SLIP set=SLIPS1 sequence=next
HDR2 format=F block=00080 record=00080
mark
mark
EOF1
EOF2
mark
again
mark
end
