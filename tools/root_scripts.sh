# Sourced by the scripts at the root, ./inspect, ./keys, ./armour and ./dearmour, each around programs of its own. A script has set `me`,
# its name, and `root`, and has a function `usage`.

# Where standard input is closed, the next file that is opened would take its place.
closed=no
[ -e "/proc/$$/fd/0" ] || { closed=yes; exec </dev/null; }

say() { printf '%s: %s\n' "$me" "$*" >&2; }
# A file's name may hold what a terminal would obey.
shown() { printf '%s' "$1" | LC_ALL=C tr '\000-\037\177' '?' | LC_ALL=C sed 's/\xc2[\x80-\x9f]/?/g'; }
wrong_use() { say "$*"; usage >&2; exit 2; }
run() { sh "$root/tools/run_program.sh" "$1"; }

# COMMAND..: without one of these a good file would be taken for a bad one.
need() {
    local tool
    for tool in "$@"; do
        command -v "$tool" >/dev/null 2>&1 || { say "the command $tool isn't here"; exit 2; }
    done
}

# PROGRAM..: built by rt, one script at a time: two may ask at once, as in a pipe. No option of this shell goes on to rt's.
ask_rt() {
    flock -w 5 "$root/crates.txt" true 2>/dev/null || say "another script is building: waiting for it"
    cd "$root" && flock -o crates.txt env -u SHELLOPTS bash tools/build.sh "$@" 2>&1 </dev/null || echo "$me: it was not built"
}

# PROGRAM..: asks rt each time, so that no program answers that is older than its sources. Each crate that is proved anew is told.
build() {
    local program line log='' all_built=yes
    for program in "$@"; do
        [ -x "$root/target/bin/$program" ] || all_built=no
    done
    if ! command -v rt >/dev/null 2>&1; then
        [ $all_built = yes ] || { say "the program isn't built, and the Rattle kit's command rt is not on the PATH"; return 1; }
        say "the Rattle kit's command rt is not on the PATH: this is the program as it was built last"
        return 0
    fi
    need flock
    [ $all_built = yes ] || say "first use: proving and building the program, which takes some minutes"
    while IFS= read -r line; do
        log+=$line$'\n'
        case $line in *" proved") say "$line" ;; esac
    done < <(ask_rt "$@")
    case $log in *"$me: it was not built"$'\n') printf '%s' "$log" >&2; return 1 ;; esac
}

# FILE, - for standard input: why it can't be read. It fails where it can.
out_of_reach() {
    if [ "$1$closed" = -yes ]; then
        echo "standard input is closed"
    elif [ "$1" = - ]; then
        return 1
    elif [ -d "$1" ]; then
        echo "$(shown "$1") is a folder"
    elif [ ! -e "$1" ]; then
        echo "there is no file $(shown "$1")"
    elif [ ! -r "$1" ]; then
        echo "$(shown "$1") can't be read"
    else
        return 1
    fi
}
