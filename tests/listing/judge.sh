# For the scripts beside this one: what a program printed, against what it must print. Sourced in the repository's top folder.
#
#   says WORDS                   the papers' words, which settle what follows
#   judge STATUS TITLE LINE..    the input TITLE ended with STATUS and has to have printed these lines into $work/printed
#   verdict NAME                 how many inputs agreed; the exit status is 1 where one differs
work=$(mktemp -d)
trap 'rm -rf "$work"' EXIT
inputs=0
differ=0
words=

says() { words=$1; }

judge() {
    local status=$1 title=$2
    shift 2
    inputs=$((inputs + 1))
    printf '%s\n' "$@" >"$work/expected"
    if [ "$status" -ne 0 ] || ! cmp -s "$work/expected" "$work/printed"; then
        differ=$((differ + 1))
        echo "papers: $words"
        echo "input $title: exit status $status, expected (-) and printed (+)"
        diff -u "$work/expected" "$work/printed" | tail -n +3 | cut -c 1-120 | head -n 20
    fi
}

verdict() {
    if [ "$differ" -gt 0 ]; then
        echo "$1: $differ of $inputs inputs differ"
        exit 1
    fi
    echo "$1: $inputs inputs agreed"
}
