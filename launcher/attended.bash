# shellcheck shell=bash
# It is sourced by the scripts that start a program and go on when it has ended.

# Files that go where a signal ends the shell, and the process that ends with the command, if there is one.
temporary=()
beside=''

# attended COMMAND..: runs it, and answers its status. A signal that ends this shell ends the command too. It stands in the
# background, since a shell heeds no signal while it waits for the foreground, with the standard input that there is. Where
# the variable waits_for has a word, it is told how long that lasts.
attended() {
    local status ticker='' begun=$SECONDS
    if { : <&0; } 2>/dev/null; then
        "$@" <&0 &
    else
        "$@" <&- &
    fi
    attended=$!
    if [ -n "${waits_for:-}" ]; then
        tick </dev/null >/dev/null &
        ticker=$!
    fi
    trap 'end_attended INT' INT
    trap 'end_attended TERM' TERM
    trap 'end_attended HUP' HUP
    wait "$attended"
    status=$?
    trap - INT TERM HUP
    end_ticks
    return "$status"
}

# end_attended SIGNAL: ends the command, and then this shell by the signal, as if it had no trap.
end_attended() {
    trap '' INT TERM HUP
    kill -TERM "$attended" 2>/dev/null
    wait "$attended" 2>/dev/null
    end_beside
    end_ticks
    rm -f "${temporary[@]}"
    trap - INT TERM HUP
    kill "-$1" "$BASHPID"
}

# end_beside: ends the process beside the command.
end_beside() {
    [ -n "$beside" ] || return 0
    kill "$beside" 2>/dev/null
    wait "$beside" 2>/dev/null
    beside=''
}

# probe, end_probe: what else is told of a command that lasts, as `found`, and the end of what finds it. A script may have
# functions of its own for them.
probe() { :; }
end_probe() { :; }

# tick: says from the second second on how long the command has run, and what `probe` has found meanwhile, until it ends or
# begins to write. What is written next goes over it.
tick() {
    local never found=''
    { exec {never}<> <(:); } 2>/dev/null || return
    trap 'end_probe; exit' TERM HUP
    while read -r -t 1 -u "$never"; [ $? -gt 128 ] && kill -0 "$attended" 2>/dev/null && ! has_written; do
        [ $((SECONDS - begun)) -ge 2 ] || continue
        probe
        printf '%s: %d s%s\r' "$waits_for" $((SECONDS - begun)) "$found" >&2
    done
    end_probe
}

# has_written: whether it is known that the command has written anything.
has_written() {
    local counts
    { counts=$(<"/proc/$attended/io"); } 2>/dev/null || return
    [[ $counts =~ wchar:\ [1-9] ]]
}

# end_ticks: ends what `attended` began, and takes away what it said.
end_ticks() {
    [ -n "$ticker" ] || return 0
    kill "$ticker" 2>/dev/null
    wait "$ticker" 2>/dev/null
    [ $((SECONDS - begun)) -lt 2 ] || printf '%30s\r' '' >&2
}
