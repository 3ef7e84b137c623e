# Everything a set may have beside its meaning: optional and user labels, four bytes before the units of each
# block, padding behind them, an owner, an empty file.
VOL1 volume=OPT001 owner='TIDE OFFICE'
VOL2 KEEP COLD
VOL3 KEEP DRY
UVL1 SHELF 12
HDR1 file='TIDE TABLE' set=TIDES6 generation=0003 version=02 created=' 85001' expires='000000'
HDR2 format=F block=00030 record=00008 offset=04
HDR3 MADE BY TIDE 3
UHL1 FIRST CARD
UHL2 SECOND CARD
mark
block 0001HI 04:12LO 10:31^^
block 0002HI 16:40LO 22:58HI 05:01
mark
EOF1
EOF2
EOF3 MADE BY TIDE 3
UTL1 LAST CARD
mark
HDR1 file=REMARKS sequence=next
HDR2 format=D block=00040 record=00024 offset=02
mark
block --0012CALM SEA00040010FOG^^^^^^^
mark
EOF1
EOF2
mark
HDR1 file=SPARE sequence=next
HDR2 format=S block=00020 record=00010 offset=00
mark
mark
EOF1
EOF2
mark
mark
end
