# The doors of choppings (./keeper cut ..) and what ./keeper test tries of them. Read by keeper.

# Keeps standard input in a file of its own.
keep() {
    kept=$(mktemp) || exit 2
    trap 'rm -f "$kept"' EXIT
    cat >"$kept" 2>/dev/null || { say "standard input cannot be read, or not be kept"; exit 2; }
}

# The verdict on the pieces of standard input: its line, and in words what it says.
chopping() {
    keep
    verdict=$(launch cut <"$kept")
    case $verdict in
    '')
        say "the pieces could not be judged"
        return 2
        ;;
    accepted) say "accepted: no circle of pieces has links of both kinds" ;;
    'refused '*)
        say "refused: a circle of pieces has links of both kinds"
        LC_ALL=C awk -v circle="${verdict#refused }" -f "$here/include/links.awk" "$kept" | while IFS= read -r line; do say "$line"; done
        ;;
    'too many pieces') say "not judged: there are more than 32 pieces" ;;
    'unknown item') say "not judged: an item is above 63" ;;
    *) say "not judged: line ${verdict#bad line } is neither a piece nor a comment" ;;
    esac
    printf '%s\n' "$verdict" || return 2
    case $verdict in
    accepted) return 0 ;;
    'refused '*) return 1 ;;
    *) return 2 ;;
    esac
}

# An example's output is the one that is written beside it.
as_expected() {
    if ! launch "$1" <"$here/examples/$2.txt" | cmp -s - "$here/examples/$2.expected"; then
        say "$2: what $1 says of it differs from examples/$2.expected"
        exit 1
    fi
}

# What cannot be read has no answer: nothing on standard output, and why on standard error.
silent() {
    if [ -n "$(launch "$1" <"$here/examples" 2>/dev/null)" ] || [ -z "$(launch "$1" <"$here/examples" 2>&1)" ]; then
        say "$1: it speaks of a folder, or does not say why not"
        exit 1
    fi
}

# The examples of choppings: each has its verdict.
choppings() {
    tried=0
    for answers in "$here"/examples/cut-*.expected; do
        as_expected cut "$(basename "$answers" .expected)"
        tried=$((tried + 1))
    done
    silent cut
    say "cut: $tried choppings, each with its verdict; none for what cannot be read"
}

# The finest cut of the programs of standard input: its pieces, and in words what was found.
finest() {
    keep
    pieces=$(launch fine <"$kept")
    case $pieces in
    '')
        # right where all lines are comments
        if LC_ALL=C sed -e 's/^#.*//' -e 's/ #.*//' "$kept" | grep -q .; then
            say "the programs could not be cut"
            return 2
        fi
        say "no operation: nothing to cut"
        ;;
    'too many operations') say "not cut: there are more than 32 operations" ;;
    'unknown item') say "not cut: an item is above 63" ;;
    'bad line '*) say "not cut: line ${pieces#bad line } is neither an operation nor a comment" ;;
    *) say "pieces: $(printf '%s\n' "$pieces" | wc -l | tr -d ' '), the finest that are safe; behind the # of each are its operations" ;;
    esac
    [ -z "$pieces" ] || printf '%s\n' "$pieces" || return 2
    case $pieces in
    'too many operations' | 'unknown item' | 'bad line '*) return 2 ;;
    esac
}

# The examples of whole programs: each has its pieces, and the judge of choppings accepts them.
finest_cuts() {
    tried=0
    judged=0
    for answers in "$here"/examples/fine-*.expected; do
        name=$(basename "$answers" .expected)
        as_expected fine "$name"
        tried=$((tried + 1))
        case $(cat "$answers") in 'too many operations' | 'unknown item' | 'bad line '*) continue ;; esac
        verdict=$(launch cut <"$answers")
        if [ "$verdict" != accepted ]; then
            say "$name: of its pieces the judge says $verdict"
            exit 1
        fi
        judged=$((judged + 1))
    done
    silent fine
    say "fine: $tried texts of whole programs, each with its pieces; $judged choppings, each accepted; none for what cannot be read"
}
