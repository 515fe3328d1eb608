# What shell scripts of tests/ share: the words of a call, which may be --help or one that the script knows (`known`), places, a folder
# to work in, complaints, and calls of a script (`tested`).
script=${0##*/}
case "$*" in
    '' | "${known-}") ;;
    --help | -h) sed -n '2,/^set/s/^# \{0,1\}//p' "$0" && exit ;;
    *) echo "$script: unknown words (see tests/$script --help)" >&2 && exit 2 ;;
esac
top=$(cd "$(dirname "$0")/.." && pwd)
room=$(mktemp -d)
trap 'rm -rf "$room"' EXIT
unset DESTDIR PREFIX
failed=0
cd "$room" || exit 1

wrong() {
    echo "$script: $*" >&2
    failed=1
}

# STATUS LINE WORDS ..: the tested script ends so, with no more than one line, which has LINE in it
ends() {
    local status=$1 line=$2 found
    shift 2
    "$tested" "$@" > output 2> fault
    found=$?
    [ $found -eq "$status" ] || wrong "$*: status $found and not $status: $(cat fault)"
    [ "$(wc -l < fault)" -eq 1 ] && grep -qF -- "$line" fault || wrong "$*: no line '$line': $(cat fault)"
    [ $found -eq 0 ] || [ ! -s output ] || wrong "$*: $(cat output)"
}
