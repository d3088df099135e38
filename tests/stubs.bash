# shellcheck shell=bash disable=SC2034 # names that those have who source it
# What tests/launcher and tests/scripts share: a tree with the launcher and stubs in place of the program and of rt, and how
# a trial is judged. It is sourced.
set -u
top=$(dirname "$(dirname "$(readlink -f "$0")")")
work=$(mktemp -d)
trap 'rm -rf "$work"' EXIT
tree=$work/"a tree, it's \$odd"
launcher=$work/hawkopal
dist=$tree/dist
program=$tree/crates/hawkopal/out/hawkopal
export LC_ALL=C.UTF-8 STUB_REPORT=$work/report STUB_STATUS=0 STUB_LOG=$work/log
unset HAWKOPAL_QUIET
tried=0
failed=0

mkdir -p "$(dirname "$program")" "$tree"/crates/{below/src,hawkopal/src} "$work/bin" "$work/tmp" "$tree/tests" "$dist"
cp -R "$top/hawkopal" "$top/launcher" "$tree"
cp "$top/tests/dist" "$tree/tests"
cp "$top/dist/update" "$dist"
ln -s "$tree/hawkopal" "$launcher"
printf '# crates\nbelow:\nhawkopal: below\n' >"$tree/crates.txt"
echo 'fn below' >"$tree/crates/below/src/lib.rt"
echo 'fn main' >"$tree/crates/hawkopal/src/main.rt"

# The stub writes a report and ends with a status, as it is told, and notes its words.
cat >"$work/stub" <<'END'
#!/usr/bin/env bash
echo "$*" >>"$STUB_LOG"
cat "$STUB_REPORT"
exit "$STUB_STATUS"
END
# The stub of rt wants the libraries that a crate stands on, and leaves a step of work behind before it proves anything.
cat >"$work/bin/rt" <<'END'
#!/usr/bin/env bash
name=${PWD##*/}
[ "$1" = version ] && echo "${STUB_KIT:-the kit}" && exit
echo "rt $1 in $name" >>"$STUB_LOG"
below=$(sed -n "s/^$name://p" ../../crates.txt)
for other in $below; do
    grep -q "^$other:" ../../crates.txt || continue
    [ -s "../$other/out/rlib/$other.rlib/all" ] || { echo "no library $other"; exit 1; }
done
mkdir -p out/incremental && echo step >>out/incremental/steps
[ -e "$STUB_LOG.slow" ] && sleep "$(cat "$STUB_LOG.slow")"
[ -e "$STUB_LOG.fail.$name" ] && echo "no proof of $name" && exit 1
case $1 in
    lib) mkdir -p "out/rlib/$name.rlib" && cat src/* >"out/rlib/$name.rlib/all" ;;
    run) cp "$STUB" "out/$name" && echo 'rt: running it' ;;
esac
echo "done $name" >>"$STUB_LOG"
[ "$1" = run ] && exit 7
exit 0
END
printf '#!/bin/sh\necho 4\n' >"$work/bin/nproc"
chmod +x "$work/stub" "$work/bin/rt" "$work/bin/nproc"
export STUB=$work/stub PATH=$work/bin:$PATH

# here COMMAND..: a command of launcher/sums.bash over the tree.
here() (
    top=$tree
    . "$tree/launcher/sums.bash"
    "$@"
)

# put FOLDER FILE COMMIT [PROGRAM]: the program in the folder, as one that was built from the sources as they are.
put() {
    local name=${4:-hawkopal}
    rm -rf "${1:?}/$name"
    cp "$2" "$1/$name"
    here write_record "$1" "$name" "$(here sources_below "$tree" "$name")" 'the kit' "$3"
}

built=$tree/crates/hawkopal/out
put "$built" "$work/stub" none

# same WHAT WANT FOUND: a trial of one thing.
same() {
    tried=$((tried + 1))
    [ "$2" = "$3" ] && return
    failed=$((failed + 1))
    echo "$1: '$3' for '$2'"
}

# ends STATUS REPORT: what the stub does from here on.
ends() {
    STUB_STATUS=$1
    printf %s "$2" >"$STUB_REPORT"
}

# expect STATUS ERROR COMMAND..: the command ends with the status, writes the report of the stub, byte for byte, and
# the text on standard error.
expect() {
    local status=$1 error=$2
    shift 2
    "$@" >"$work/out" 2>"$work/err"
    same "status of $*" "$status" $?
    same "report of $*" "$(od -c "$STUB_REPORT")" "$(od -c "$work/out")"
    same "errors of $*" "$error" "$(cat "$work/err")"
}

# at_terminal SHOWN COMMAND: with a terminal as standard error the status and the report stay, and the text is shown.
at_terminal() {
    local shown
    shown=$(script -qec "$2 >'$work/out'" /dev/null </dev/null | tr -d '\r'; exit "${PIPESTATUS[0]}")
    same "status at a terminal of $2" "$STUB_STATUS" $?
    same "report at a terminal of $2" "$(od -c "$STUB_REPORT")" "$(od -c "$work/out")"
    same "shown of $2" "$1" "$shown"
}

spec=$work/spec.est
trace=$work/trace
cat >"$spec" <<'END'
specification S;
	channel	C(A, B);
{ größer } modvar X: M;
END
printf 'trace 1\r\nin p.go\r\nin \033[31m\0p.go' >"$trace"

# ended_all: says how many trials went as they should, and ends with the number of the others.
ended_all() {
    echo "$((tried - failed)) as they should, $failed not"
    exit "$failed"
}
