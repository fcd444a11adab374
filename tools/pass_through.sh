# Sourced by ./armour and ./dearmour: what the two have in common. Each has set what root_scripts.sh asks for, and has a function
# `in_words` for its refusals. The bytes go from the file through the program to standard output, and the shell holds none of them.

# shellcheck source=tools/root_scripts.sh
. "$root/tools/root_scripts.sh" || exit 2

# NAME: standard input through the program, which tells a refusal or a failure on standard error and can set no status. A loader that is
# given a library that it can't load says so there too, and goes on.
pass() {
    local told status
    { told=$(run "$me" 2>&1 >&3 3>&-); status=$?; } 3>&1
    [ -z "$told" ] || printf '%s\n' "$told" >&2
    told=${told##*$'\n'}
    case $status,$told in
    0,"refused "*" 0 0") told=${told#refused }; say "$1: $(in_words "${told% 0 0}")"; return 1 ;;
    0,"$me: "* | [!0]*) say "$1: not done"; return 2 ;;
    esac
}

# [FILE]
pass_through() {
    local why
    case ${1:-} in
    --help | -h) usage; exit 0 ;;
    --) shift ;;
    -?*) wrong_use "there is no option $(shown "$1")" ;;
    esac
    [ $# -le 1 ] || wrong_use "one file at a time"
    [ $# -eq 1 ] || set -- -
    need sed tr
    [ -e "/proc/$$/fd/1" ] || { say "standard output is closed"; exit 2; }
    if why=$(out_of_reach "$1"); then say "$why"; exit 2; fi
    build "$me" || exit 2
    if [ "$1" = - ]; then
        pass "standard input"
    elif exec <"$1"; then
        pass "$(shown "$1")"
    else
        exit 2
    fi
}
