# A log of a station as a trace of alternating_bit.est. A line is: time, where, what, and its numbers. What comes to the
# station has >, what it sends has <. Whole seconds that pass between two lines become time.
BEGIN { print "trace 1" }
{ split($1, clock, ":"); now = int(clock[1] * 3600 + clock[2] * 60 + clock[3]) }
NR > 1 && now > before { print "time " now - before }
{ before = now; way = $2 ~ />/ ? "in" : "out" }
$2 == "user>" { print way " u.sendrequest(" $4 ")" }
$2 == "user<" { print way " u." ($3 == "SENT" ? "sendconfirm" : "receiveindication(" $4 ")") }
$2 ~ /^line/ { print way " n.transfer((" tolower($3) ", " $4 ", " ($3 == "ACK" ? "_" : $5) "))" }
END { print "end" }
