# What tshark tells of packets as a trace of sessions.est. A line is: time, source, destination, operation, file, block,
# error and length, with tabs between them. The server is 10.0.0.9, and client n is 10.0.0.n.
BEGIN { FS = "\t"; print "trace 1" }
{ now = int($1); if (now > before) print "time " now - before; before = now }
{ split($3 == "10.0.0.9" ? $2 : $3, address, "."); port = "port[" address[4] "]" }
$4 == 1 { print "in " port ".read(" $5 ")" }
$4 == 3 { print "out " port ".data(" $6 ", " ($8 < 524 ? "true" : "false") ")" }
$4 == 4 { print "in " port ".ack(" $6 ")" }
$4 == 5 { print "out " port ".error(" ($7 == 3 ? "busy" : "unexpected") ")" }
END { print "end" }
