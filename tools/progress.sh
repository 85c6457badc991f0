# shellcheck shell=bash
# Sourced by ./bench, ./library and ./test, at the repository's root: runs a command, and tells on standard error how far it is. At a
# terminal that is one line, written over again and again. Anywhere else it is a line for each crate as its proof begins, and one more
# wherever nothing was to be seen for a while.

# Seconds without a line, after which one says that the work goes on.
patience=10

# The crates of crates.txt that these stand on, and themselves, lower ones first; all of them where none is named.
crates_below() {
    awk -v wanted="$*" '
        function take(name,    names, k, n) {
            if (!(name in below) || taken[name]++) return
            n = split(below[name], names, " ")
            for (k = 1; k <= n; k++) take(names[k])
            print name
        }
        { sub(/#.*/, "") }
        match($0, /:/) {
            name = substr($0, 1, RSTART - 1)
            gsub(/^[ \t]+|[ \t].*$/, "", name)
            below[name] = substr($0, RSTART + 1)
        }
        END {
            count = split(wanted, names, " ")
            for (k = 1; k <= count; k++) take(names[k])
            if (count == 0) for (name in below) take(name)
        }' crates.txt
}

# The edits that the prover must refuse.
all_edits() {
    find crates -path '*/must-fail/*.edit' ! -path 'crates/*/out/*'
}

# What is built runs on every x86-64 processor; left to itself rt compiles for those of x86-64-v2.
processor=x86-64

# Has a crate's static library proved and compiled, and puts it into target/staticlib: the crate, a title, and the file for what rt prints.
kept_library() {
    follow "$2" kept "$3" env -C "crates/$1" rt lib --cpu "$processor" && mkdir -p target/staticlib && cp "crates/$1/out/lib$1.a" target/staticlib/
}

# A sum of all that a built file comes from, and of the file itself: the crates without their edits, and their list.
sum_of() {
    { echo crates.txt && find crates -type f ! -path '*/must-fail/*' ! -path 'crates/*/out/*' && echo "$1"; } | LC_ALL=C sort | xargs -d '\n' sha256sum | sha256sum
}

# Was this file built of the sources that stand here? That is told by a sum beside it. Where the kit is there, it has to be the one that
# built it; where it is missing, the sum is enough.
is_current() {
    local sum kit
    [ -f "$1" ] && [ -f "$1.sum" ] && { read -r sum && read -r kit; } <"$1.sum" && [ "$sum" = "$(sum_of "$1")" ] || return 1
    ! command -v rt >/dev/null 2>&1 || [ "$kit" = "$(rt version)" ]
}

# From now on it is.
set_current() {
    { sum_of "$1" && rt version; } >"$1.sum"
}

# follow TITLE HOW LOG COMMAND ..: runs the command. What it prints goes to the file LOG, and where HOW is 'shown' to standard output as
# well. The status is the command's. The functions below see the variables of this one.
follow() {
    local title=$1 how=$2 log=$3 crates=0 edits=0 proved=0 tried=0 line='' held='' drawn='' at='' stream runner
    local began=$SECONDS seen=$SECONDS
    shift 3
    case $* in
    'rt ci') crates=$(crates_below | wc -l) edits=$(all_edits | wc -l) ;;
    'env -C crates/'*' rt '*) crates=$(crates_below "${3#crates/}" | wc -l) ;;
    esac
    : >"$log"
    exec {stream}< <(exec "$@" 2>&1 </dev/null)
    runner=$!
    while :; do
        if IFS= read -r -t 1 -u "$stream" line; then
            follow_line "$held$line"
            held=''
        elif [ $? -gt 128 ]; then
            held+=$line
            follow_second
        else
            [ -z "$held$line" ] || follow_line "$held$line"
            break
        fi
    done
    exec {stream}<&-
    follow_wipe
    wait "$runner"
}

# A line of the command's. A crate of which nothing has changed has none.
follow_line() {
    printf '%s\n' "$1" >>"$log"
    if [ "$how" = shown ]; then
        follow_wipe
        printf '%s\n' "$1"
        seen=$SECONDS
    fi
    if [[ $1 == 'rt: must-fail '* ]]; then
        tried=$((tried + 1))
    elif [[ $1 =~ ^rt:\ [a-z0-9_]+\ (NOT\ PROVED$|proved$|is\ kept:) ]]; then
        proved=$((proved + 1))
    elif [ "$edits" -eq 0 ] && [[ $1 =~ ^rt:\ chose\ --jobs\ [0-9]+\ for\ ([a-z0-9_]+)$ ]]; then
        follow_begins "${BASH_REMATCH[1]}"
    elif [ "$edits" -eq 0 ] && [[ $1 == logic=* ]]; then
        proved=$((proved + 1))
    fi
}

# A second without a line: how long it has been under way.
follow_second() {
    local now=$((SECONDS - began))
    if [ -t 2 ]; then
        follow_wipe
        drawn=$(follow_where "$now")
        drawn=${drawn:0:78}
        printf '%s' "$drawn" >&2
    elif [ $((SECONDS - seen)) -ge "$patience" ]; then
        follow_where "$now" >&2
        seen=$SECONDS
    fi
}

# A crate's proof begins; where there is no terminal, that is a line.
follow_begins() {
    at=$1
    [ -t 2 ] || { echo "$title: proving $1, of $crates crates" >&2 && seen=$SECONDS; }
}

# One line on how far it is.
follow_where() {
    if [ "$edits" -gt 0 ] && [ "$proved" -lt "$crates" ]; then
        echo "$title, $1 s: $((crates - proved)) of $crates crates left"
    elif [ "$tried" -lt "$edits" ]; then
        echo "$title, $1 s: $((edits - tried)) of $edits edits left"
    else
        echo "$title, $1 s${at:+: at $at}"
    fi
}

# Nothing stands in the terminal's line any more.
follow_wipe() {
    [ -z "$drawn" ] || printf '\r\033[K' >&2
    drawn=''
}
