# Functions for `./cacao`, `./cacao-view`, `./prove`, `.ci/run` and `bench/gate.sh`, which set `top`, the top of the repository, and `program`,
# the crate of a program: what a program is made of, the folder in which it stands, and whose turn it is to build there.
#
# A program NAME stands beside NAME.sources, the list of what it was made of (made_of), and NAME.times, by which an unchanged list is known
# sooner. Whoever replaces a program removes these first and writes them last, so what was cut off half way counts for nothing.

# The toolchain with which unproved_build.py and kept_program.py were tried; they lean on what it does not document.
known_kit='rattle-kit-13f logic dac8208d650f15bf'

say() {
    echo "${0##*/}: $*" >&2
}

# What it is made of.

# The crates that the program stands on, lowest first, itself last, as lines of crates.txt in the folder $1.
lines_of() {
    awk -v top="$program" '
        /^[ \t]*#/ || !/:/ { next }
        { name = $1; sub(/:.*/, "", name); line[name] = $0; below[name] = $0; sub(/^[^:]*:/, "", below[name]) }
        function walk(name, words, count, at) {
            if (!(name in line) || name in seen) return
            seen[name] = 1
            count = split(below[name], words, " ")
            for (at = 1; at <= count; at++) walk(words[at])
            print line[name]
        }
        END { walk(top) }' "$1/crates.txt"
}

# Their names, one a line.
crates_of() {
    lines_of "$1" | sed 's/[ :].*//'
}

# The toolchain's command, or nothing.
kit_command() {
    command=$(command -v rt) && readlink -f "$command"
}

# The toolchain's line, as `rt version` prints it.
kit_line() {
    cat "$(dirname "$(kit_command)")/../KIT-ID" 2>/dev/null || rt version 2>/dev/null
}

# The sources in the folder $1 by their names, in order, each ended by a byte 0: of the proved program ($2 is `proved`), or of the
# unproved one, which no definition and no proof enters. No tests, wrong bodies or documents.
files_of() {
    (
        cd "$1" || exit
        folders=src
        [ "$2" = unproved ] || folders='src specs proofs'
        for crate in $(crates_of .); do
            for folder in $folders; do
                [ ! -d "crates/$crate/$folder" ] || printf '%s\0' "crates/$crate/$folder"
            done
        done | xargs -0 -r sh -c 'exec find "$@" -type f ! -path "*/src/tests.rt" ! -path "*/src/tests/*" ! -path "*/proofs/tests/*" -print0' find
    ) | sort -z
}

# What a program of the kind $2 is made of: the toolchain, the lines of crates.txt, and the sources with the sums of their contents.
made_of() {
    kit=$(kit_command) || return 1
    echo "$kit $(kit_line)"
    sha256sum <"$kit"
    lines_of "$1"
    files_of "$1" "$2" | (cd "$1" && xargs -0 -r sha256sum)
}

# The same by what changes with each change of a file: its size, its number, when it was last written, and when written or moved.
times_of() {
    kit=$(kit_command) || return 1
    form='%p %s %i %T@ %C@\n'
    find "$kit" "$(dirname "$kit")/../KIT-ID" -maxdepth 0 -printf "$form" 2>/dev/null
    lines_of "$1"
    files_of "$1" "$2" | (cd "$1" && xargs -0 -r sh -c 'exec find "$@" -maxdepth 0 -printf "$0"' "$form")
}

# Whether the program $3 of the kind $2 was made of what stands in the folder $1.
is_current() {
    [ -x "$3" ] && [ -f "$3.sources" ] && times=$(times_of "$1" "$2") || return 1
    case $(cat "$3.times" 2>/dev/null) in
    "current $times") return 0 ;;
    "stale $times") return 1 ;;
    esac
    verdict=stale
    ! made_of "$1" "$2" | cmp -s - "$3.sources" || verdict=current
    # (where the folder cannot be written, the next call looks again)
    { echo "$verdict $times" >"$3.times.$$" && mv "$3.times.$$" "$3.times"; } 2>/dev/null
    [ "$verdict" = current ]
}

# Puts the program $1, made of the list $2, in the place of $3.
put() {
    rm -f "$3.sources" "$3.times" && mv "$1" "$3" && mv "$2" "$3.sources"
}

# Where it stands.

# The caller's own folder for programs of this checkout.
own_folder() {
    echo "${XDG_CACHE_HOME:-${HOME:-/dev/null}/.cache}/cacao/$(echo "$top" | sha256sum | cut -c 1-16)"
}

# Sets `folder` to the one to build in: `.build`, or the caller's own where that cannot be written.
choose_folder() {
    for folder in "$top/.build" "$(own_folder)"; do
        { mkdir -p "$folder" && [ -w "$folder" ]; } 2>/dev/null && return
    done
    return 1
}

# Says where the program is built, if not in `.build`.
say_folder() {
    [ "$folder" = "$top/.build" ] || say "$top/.build cannot be written, so the program is built in $folder"
}

# Whose turn it is.

child=

# Starts a command that ends when this script does, with no input and with its output on standard error. It holds no turn.
begin() {
    setpriv --pdeathsig TERM "$@" </dev/null >&2 9>&- &
    child=$!
}

# Waits until it ends, and returns its status.
end() {
    wait "$child"
    set -- "$?"
    child=
    return "$1"
}

# Ends for a signal, and what was begun with it.
stop() {
    [ -z "$child" ] || { kill "$child" && wait "$child"; } 2>/dev/null
    exit 125
}

# Waits until no other call holds the turn $1 of the folder, which this one then holds until it ends; it waits to $2.
take_turn() {
    touch "$folder/$1.lock" || return 1
    exec 9>"$folder/$1.lock"
    flock -n 9 && return
    say "another call is at work there already; waiting to $2"
    setpriv --pdeathsig TERM flock 9 </dev/null &
    child=$!
    end
}

give_turn() {
    exec 9>&-
}

# What the gate proved.

# Where `rt ci` keeps what it proved.
store() {
    echo "$(dirname "$(dirname "$(dirname "$(kit_command)")")")/rattle-kept"
}

# Puts the proved program in its place that an `rt ci` on this machine kept, unless the same was sought in vain before.
take_kept() {
    [ "$(kit_line)" = "$known_kit" ] && found=$(ls -d "$(store)/proof-$program"-* 2>/dev/null) && choose_folder || return 1
    sought=$(times_of "$top" proved; echo "$found")
    [ "$sought" != "$(cat "$folder/$program.sought" 2>/dev/null)" ] || return 1
    take_turn build "take a proved program" && made_of "$top" proved >"$folder/made.sources" || return 1
    begin python3 "$top/bench/launcher_parts/kept_program.py" "$folder/made" "$program"
    if end && made_of "$top" proved | cmp -s - "$folder/made.sources"; then
        put "$folder/made" "$folder/made.sources" "$folder/$program"
    else
        echo "$sought" >"$folder/$program.sought"
        rm -f "$folder"/made*
    fi
    give_turn
    is_current "$top" proved "$folder/$program"
}

# The crates of the programs that crates.txt lists.
programs_listed() {
    for program in cacao cacao_view_main; do
        ! grep -q "^$program:" "$top/crates.txt" || echo "$program"
    done
}

# Notes what the proved programs would be made of, before `rt ci` runs in `top`.
before_gate() {
    noted=$(mktemp -d) || return 1
    for program in $(programs_listed); do
        made_of "$top" proved >"$noted/$program"
    done
}

# Keeps the programs that `rt ci` proved and ran. It fails nothing.
after_gate() {
    for program in $(programs_listed); do
        listed=$noted/$program
        keep_listed
    done
    rm -rf "$noted"
}

# Keeps the program that `rt ci` proved and ran, if what it is made of is still the list `listed`.
keep_listed() {
    made_of "$top" proved | cmp -s - "$listed" && choose_folder && (
        take_turn build "keep the program" && cp "$top/crates/$program/out/$program" "$folder/made" &&
            put "$folder/made" "$listed" "$folder/$program" && say "kept the proved program as $folder/$program"
    ) || say "the program is not kept for ./cacao"
    rm -f "$listed"
}
