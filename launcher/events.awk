# Takes a good trace apart, or good lists of `ports`: a line for each event, and one for the `end`, with how many bytes stand
# before it, the number of its line, and its text without comments, of which no more than some 200 bytes are told. An event of
# lists is told with its port, as in a trace:
#
#     LC_ALL=C awk -f launcher/events.awk TRACE
#
# An event begins at the first word after the one before it: after the number of a `time`, or the values of a signal, or
# the signal where no values follow. What is awaited is one of: trace, version, event, units, port, point (what follows
# a port), signal, values (what follows a signal); in lists also name, and subscripts (what follows the name of a port).

BEGIN { awaited = "trace"; OFS = "\t"; most = 200 }

{
    rest = $0
    while (rest != "") take_next()
    bytes += length($0) + 1
    if (is_open) blank = " "
}

# take_next: takes the next token of the line, or the blanks or the part of a comment before it.
function take_next() {
    if (is_comment) {
        is_comment = !match(rest, /[}]|[*][)]/)
        rest = is_comment ? "" : substr(rest, RSTART + RLENGTH)
        blank = " "
    } else if (match(rest, /^[ \t\r\f]+/)) {
        rest = substr(rest, RLENGTH + 1)
        blank = " "
    } else if (match(rest, /^([{]|[(][*])/)) {
        rest = substr(rest, RLENGTH + 1)
        is_comment = 1
    } else {
        if (!(depth && match(rest, /^[A-Za-z0-9_, -]+/)) &&
            !match(rest, /^([A-Za-z][A-Za-z0-9_]*|[0-9]+|''''|'.')/)) RLENGTH = 1
        judge(substr(rest, 1, RLENGTH), bytes + length($0) - length(rest))
        rest = substr(rest, RLENGTH + 1)
        blank = ""
    }
}

# judge: what a token is, with so many bytes before it.
function judge(token, before) {
    if (!depth && (awaited == "values" && token != "(" || awaited == "subscripts" && token != "[")) awaited = "event"
    if (awaited == "event") begin(token, before)
    else if (awaited == "trace") {
        is_lists = tolower(token) == "ports"
        awaited = "version"
    } else if (awaited == "version" || awaited == "units") awaited = "event"
    else if (awaited == "port") awaited = "point"
    else if (awaited == "signal") {
        awaited = "values"
        if (is_lists) token = port "." token
    } else if (awaited == "name") {
        awaited = "subscripts"
        port = token
    } else {
        if (awaited == "subscripts") port = port blank token
        within(token)
    }
    if (is_open && length(text) < most) text = text blank token
}

# begin: the first word of an event, of the `end`, or in lists of a port, with so many bytes before it.
function begin(token, before) {
    tell()
    is_open = !is_lists || tolower(token) != "port"
    start = before; line = NR; text = ""; blank = ""
    if (!is_open) awaited = "name"
    else if (tolower(token) == "time") awaited = "units"
    else awaited = is_lists ? "signal" : "port"
}

# within: a token of the subscripts of a port, or of the values of a signal.
function within(token) {
    if (token ~ /^[[(]$/) depth++
    else if (token ~ /^[])]$/) depth--
    else if (!depth && token == ".") awaited = "signal"
    if (!depth && (token == ")" || awaited == "subscripts")) awaited = "event"
}

function tell() {
    gsub(/  +/, " ", text)
    if (is_open) print start, line, length(text) < most ? text : substr(text, 1, most) ".."
}

END { tell() }
