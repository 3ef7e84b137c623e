# Three reels. The second message begins on the first reel, goes on on the second and ends on the third,
# where a file of two records follows. The reel between holds nothing else.
VOL1 volume=GATE01
HDR1 file=MESSAGES set=NIGHT7 created=' 86014' expires=' 86365'
HDR2 format=S block=00024 record=00060
mark
block 00014LINE OPEN10010FLOOD
mark
EOV1
EOV2
mark
mark
end
VOL1 volume=GATE02
HDR1 section=next
HDR2
mark
block 20022 AT THE LOWER GAT
mark
EOV1
EOV2
mark
mark
end
VOL1 volume=GATE03
HDR1 section=next
HDR2
mark
block 30017E, SEND HELP00005
block 00016LINE CLOSED^^^^
mark
EOF1
EOF2
mark
HDR1 file=INDEX section=first sequence=next
HDR2 format=D block=00064 record=00020
mark
block 0015NIGHT SHIFT0008DONE
mark
EOF1
EOF2
mark
mark
end
