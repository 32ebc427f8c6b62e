# What ./replay and ./explain share. Each says how it is called and what --help prints, sources this file, and asks for the answer of a program. The status is 0 for a sound
# trace, 1 for a refused one, and 2 where that was not found out, or not all was written, whatever the reason.
# shellcheck shell=bash
set -euE -o pipefail
trap 'exit 2' ERR
: "${me:?}" "${root:?}" "${help:?}"

say() { printf '%s: %s\n' "$me" "$*" >&2 || :; }
fail() {
    say "$*"
    exit 2
}
misused() { fail "$* ($me --help)"; }

# What a command printed went to standard output, and what it said comes here: through a pipe, so that no full disk loses it.
hear() { # COMMAND..
    { exec 3>&1; } 2>/dev/null || fail "cannot write: standard output is closed"
    ended=0
    heard=$(exec 2>&1 >&3 3>&-; "$@") || ended=$?
    # Who asked for the output wants no more of it, as under | head.
    [ "$ended" -ne 141 ] || exit 141
}

# A word of the call that is no option of one script alone.
word() { # WORD
    case $1 in
    -h | --help)
        hear printf '%s\n' "$help"
        [ "$ended" -eq 0 ] || fail "cannot write: ${heard##*: }"
        exit 0
        ;;
    -?*) misused "unknown option $1" ;;
    esac
    [ -z "${file+named}" ] || misused "one FILE at most"
    file=$1
}

# FILE becomes standard input, which it is already without a name, or as -.
take() {
    if [ "${file--}" = - ]; then
        { : 3<&0; } 2>/dev/null || fail "standard input is closed"
        [ ! -d /dev/stdin ] || fail "standard input is a directory"
        return
    fi
    [ -e "$file" ] || fail "no such file: $file"
    [ ! -d "$file" ] || fail "$file is a directory"
    { exec <"$file"; } 2>/dev/null || fail "cannot read $file"
}

need_rt() { command -v rt >/dev/null || fail 'rt, the Rattle toolchain, is not found; README.md, "Run it", says what is needed'; }

# How many crates of crates.txt a program needs in turn, itself among them.
crates_of() { # PROGRAM
    awk -v program="$1" '
        function visit(name, needs, n) {
            if (!(name in needed) || name in seen) return
            seen[name] = ++count
            for (n = split(needed[name], needs, " "); n > 0; n--) visit(needs[n])
        }
        { sub(/#.*/, "") }
        split($0, line, ":") == 2 { needed[line[1]] = line[2] }
        END { visit(program); print count }' "$root/crates.txt"
}

# Of all that rt says, a line for each crate that it had to prove. It says nothing of a crate that it has proved before.
progress() { # PROGRAM
    local all proved=0 line name=
    all=$(crates_of "$1")
    while IFS= read -r line; do
        case $line in
        "crate "*": modules loaded="*)
            name=${line#crate }
            name=${name%%:*}
            ;;
        "logic=proved "*)
            proved=$((proved + 1))
            say "proved $proved of at most $all: $name"
            ;;
        esac
    done
}

# Whether a program prints on its test what it has to.
tested() { # PROGRAM
    local folder=$root/crates/$1 words=()
    [ ! -f "$folder/args" ] || mapfile -t words <"$folder/args"
    "$folder/out/$1" "${words[@]}" <"$folder/stdin" 2>/dev/null | cmp -s - "$folder/stdout"
}

# Proves, builds and tests a program where it is missing or a source is newer. Only rt run builds one, and it runs it too: here on nothing, and its status is then the program's. So
# what tells that all went well is the line with which rt starts it.
ready() { # PROGRAM
    local passed=$root/target/stamp/$1 log=$root/target/log/$1.log
    [ -x "$root/crates/$1/out/$1" ] || rm -f "$passed"
    # A crate's own folder is newer once rt has made out/ in it.
    if [ -f "$passed" ] && [ ! "$root/crates.txt" -nt "$passed" ] &&
        [ -z "$(find "$root/crates" -mindepth 2 -name out -prune -o -newer "$passed" -print -quit)" ]; then
        return
    fi
    need_rt
    say "proving and building the program $1: some minutes, once"
    { mkdir -p "$root/target/log" "$root/target/stamp" && : >"$log.began"; } 2>/dev/null || fail "cannot write to $root/target"
    (cd "$root/crates/$1" && rt run 2>&1 >/dev/null </dev/null) | tee "$log" | progress "$1" || :
    if ! grep -q "^rt: running out/$1;" "$log"; then
        tail -n 10 "$log" | cut -c 1-300 >&2
        fail "the program $1 is not proved; all that rt said is in $log"
    fi
    command -v cmp >/dev/null || fail "cmp, by which the program's test is compared, is not found"
    tested "$1" || fail "the program $1 does not print what crates/$1/stdout has"
    touch -r "$log.began" "$passed"
}

start() { # PROGRAM [ARGUMENT..]
    local program=$root/crates/$1/out/$1
    shift
    exec "$program" "$@"
}

# The whole of it. A program ends with 0 where it could read and write. It says nothing on standard error of a sound trace, one sentence of a refused one, and why where it could not
# read or write.
answer() { # PROGRAM [ARGUMENT..]
    take
    ready "$1"
    [ ! -t 0 ] || say "reading a trace from the terminal, to its end (Ctrl-D); $me FILE reads one from a file"
    hear start "$@"
    case $ended-$heard in
    0-) exit 0 ;;
    0-*)
        printf '%s\n' "$heard" >&2 || :
        exit 1
        ;;
    2-?*) fail "$heard" ;;
    esac
    [ -z "$heard" ] || say "$heard"
    fail "the program $1 ended with status $ended"
}
