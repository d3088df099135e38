# shellcheck shell=bash
# What the launcher, launcher/prove, dist/update and the tests of dist/ share: which programs there are, which crates they
# are made of, the sums of their sources, and the record of a program, a file NAME.sums beside it. It is sourced, and
# top is the folder of the checkout. Sums alone tell what belongs to what; no date does.

# shellcheck disable=SC2034,SC2154
dist=$top/dist
dist_machine='x86_64 Linux with glibc 2.34 or later'
sum_form='^[0-9a-f]{64}$'

say() {
    echo "hawkopal: $*" >&2
}

# built_of PROGRAM: the folder of the one that is built here.
built_of() {
    echo "$top/crates/$1/out"
}

# programs_here: the names of the programs: hawkopal, and the second one where crates.txt has it.
programs_here() {
    echo hawkopal
    [ -z "$(cd "$top" && names_below companion)" ] || echo companion
}

# lines_below CRATE..: what crates.txt says of crates and of all that they stand on, those that others stand on first.
lines_below() {
    awk -F: -v wanted="$*" '
        /^#/ || NF < 2 { next }
        { split($1, words, " "); line[words[1]] = $0; below[words[1]] = $2 }
        function visit(name, parts, count, i) {
            if (name in seen || !(name in line)) return
            seen[name] = 1
            count = split(below[name], parts, " ")
            for (i = 1; i <= count; i++) visit(parts[i])
            print line[name]
        }
        END {
            count = split(wanted, names, " ")
            for (i = 1; i <= count; i++) visit(names[i])
        }
    ' crates.txt
}

# names_below CRATE..: their names alone, in that order.
names_below() {
    lines_below "$@" | sed 's/[ :].*//'
}

# sum_of FILE: the SHA-256 of its bytes, or nothing.
sum_of() {
    sha256sum <"$1" 2>/dev/null | cut -d ' ' -f 1
}

# sources_below FOLDER CRATE: the sum of all that a proof or a build of a crate reads in a checkout: its line of
# crates.txt and its sources, and those of the crates that it stands on.
sources_below() (
    export LC_ALL=C
    cd "$1" 2>/dev/null || exit
    folders=()
    for crate in $(names_below "$2"); do
        folders+=("crates/$crate/src" "crates/$crate/specs" "crates/$crate/proofs")
    done
    {
        lines_below "$2"
        find "${folders[@]}" -type f -exec sha256sum {} + 2>/dev/null | sort
    } | sha256sum | cut -d ' ' -f 1
)

# read_record FOLDER PROGRAM: takes the record of the program in the folder, and fails where it is missing or has another
# form.
read_record() {
    local name text
    declare -gA record=([program]='' [sources]='' [kit]='' [commit]='' [target]='')
    [ -f "$1/$2.sums" ] && [ -r "$1/$2.sums" ] || return 1
    while IFS=' ' read -r name text; do
        case $name in
            program: | sources: | kit: | commit: | target:) record[${name%:}]=$text ;;
            *) return 1 ;;
        esac
    done <"$1/$2.sums"
    [[ ${record[program]} =~ $sum_form && ${record[sources]} =~ $sum_form && ${record[kit]} == ?* ]] &&
        [[ ${record[commit]} =~ ^[0-9a-f]{40}$|^none$ && ${record[target]} == x86_64-linux ]]
}

# write_record FOLDER PROGRAM SOURCES KIT COMMIT: writes the record of the program in the folder, all of it or nothing.
write_record() {
    local new=$1/$2.sums.new
    printf '%s\n' "program: $(sum_of "$1/$2")" "sources: $3" "kit: $4" "commit: $5" 'target: x86_64-linux' >"$new" &&
        mv -f "$new" "$1/$2.sums"
}

# fault_of FOLDER PROGRAM: takes the record, and sets fault to what is wrong with it or the program, or to nothing.
fault_of() {
    local sum
    fault=
    if ! read_record "$1" "$2"; then
        fault="$2.sums is damaged: it is missing or has another form"
    elif [ ! -f "$1/$2" ]; then
        fault="$2 is damaged: it is missing"
    elif sum=$(sum_of "$1/$2") && [ -z "$sum" ]; then
        fault="$2 is damaged: its sum cannot be told (by sha256sum)"
    elif [ "$sum" != "${record[program]}" ]; then
        fault="$2 is damaged: its sum is not the one in $2.sums"
    elif [ ! -x "$1/$2" ]; then
        fault="$2 is damaged: it has no leave to run (chmod +x gives it)"
    fi
}

# is_built PROGRAM SOURCES: whether the program that was built here is whole and of the sources with this sum.
is_built() {
    fault_of "$(built_of "$1")" "$1"
    [ -z "$fault" ] && [ "${record[sources]}" = "$2" ]
}

# has_dist PROGRAM: whether there is anything of the program in dist/.
has_dist() {
    [ -e "$dist/$1" ] || [ -e "$dist/$1.sums" ]
}

# runs_here: whether a program of dist/ can run on this machine, which machine then names. It takes a C library that has
# the words of glibc 2.34; where getconf does not tell which one there is, it is tried.
runs_here() {
    local library
    machine="$(uname -m) $(uname -s)"
    [ "$machine" = 'x86_64 Linux' ] || return 1
    command -v getconf >/dev/null || return 0
    library=$(getconf GNU_LIBC_VERSION 2>/dev/null)
    machine+=" with ${library:-another C library}"
    [[ $library =~ ^glibc\ 2\.([0-9]+) ]] && [ "${BASH_REMATCH[1]}" -ge 34 ]
}

# link FROM TO: the same files under a second name, where the file system can do that, or else copies.
link() {
    cp -al "$1" "$2" 2>/dev/null && return
    rm -rf "$2"
    cp -a "$1" "$2"
}

# kit_line: the one line by which the Rattle kit on the PATH names itself.
kit_line() {
    rt version </dev/null 2>/dev/null | head -n 1
}
