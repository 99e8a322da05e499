# The sheet as one long table, of the lines that the proved program prints: see bin/sheet --csv. Every number is taken over as it is.

BEGIN { split("smallest,largest,sum,smallest_g,largest_g", of_axis, ",") }
NR == 1 { print "what,range,axis,value" }
NF == 2 { print $1 ",,," $2 }
$3 == "refused" { print $1 ",,," $2; print $3 ",,," $4 }
$1 ~ /g$/ { for (i = 1; i <= 5; i++) print of_axis[i] "," $1 "," $2 "," ($3 == "none" ? "" : $(i + 2)) }
