# Written over New Year: three reels, each section with dates of its own. The file has those of its first section.
VOL1 volume=PAY001
HDR1 file=PAYROLL set=YEAR85 created=' 85365' expires=' 86365'
HDR2 format=F block=00010 record=00010
mark
block ADA    100
mark
EOV1
EOV2
mark
mark
end
VOL1 volume=PAY002
HDR1 section=next created=' 86001' expires=' 87001'
HDR2
mark
block BRUNO  090
mark
EOV1
EOV2
mark
mark
end
VOL1 volume=PAY003
HDR1 section=next created=' 86002'
HDR2
mark
block CLEO   110
mark
EOF1
EOF2
mark
mark
end
