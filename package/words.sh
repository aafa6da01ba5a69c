# What the launchers of the source and of a package do besides running a program. They read this file in, and set
#   $name     the program                       $called   how it calls itself in the launcher's lines
#   $command  how a user calls it               $parts    the folder of help.txt and more.awk
#   $pages    the folder of docs and examples   $version  the file that has the version

# Answers --help, --help JOB, --job JOB --help and --version, and ends. It takes no other command. Other words are left alone.
answer_help() {
    case $#:${1-}:${3-} in
        1:--help: | 1:-h: | 1:help:) print_help "$name" ;;
        2:--help: | 2:-h: | 2:help: | 3:--job:--help | 3:--job:-h) print_help "$name $2" ;;
        1:--version:) IFS= read -r text <"$version" && text="$name $text
" ;;
        *) return 0 ;;
    esac
    if [ -z "$text" ]; then
        printf '%s: no job %s: the jobs are in %s --help\n' "$called" "$2" "$command" >&2
        exit 2
    fi
    { printf '%s' "$text"; } 2>/dev/null && exit 0
    printf '%s: cannot write\n' "$called" >&2
    exit 8
}

# Puts a part of the help into $text, with a line for each option that it names; nothing if there is no such part.
print_help() {
    text= here= shown= named=
    while IFS= read -r line; do
        case $line in
            "= options") here=options ;;
            "= $1") here=part ;;
            "= "*) here= ;;
            *)
                case $here in
                    part) add_line ;;
                    options) [ -z "$text" ] || add_option ;;
                esac
                ;;
        esac
    done <"$parts/help.txt"
    case "$text" in
        *" examples/"*) text="$text
Run it in $(cd "$pages" && pwd).
" ;;
    esac
}

add_line() {
    named="$named $line "
    case $line in
        "    $name "*) line="    $command${line#"    $name"}" ;;
        "  $name "*) line="  $command${line#"  $name"}" ;;
    esac
    text="$text$line
"
}

# A line of the options; one that begins with more blanks goes on with the option above it.
add_option() {
    case $line in
        "  --"*)
            option=${line#  } option=${option%%[ ,]*}
            case $named in *" $option "* | *" $option;"*) is_named=1 ;; *) is_named= ;; esac
            ;;
    esac
    [ -n "$is_named" ] || return 0
    [ -n "$shown" ] || text="$text
"
    shown=1
    text="$text$line
"
}

# Runs a command, of which the words after the first $1 are the user's. At a terminal this shell stays, to say more about a refusal;
# otherwise it becomes the command. If it returns, the command can't be run.
run_and_say_more() {
    own=$1
    shift
    [ -t 2 ] && { true 9<&0; } 2>/dev/null || exec "$@"
    # In the background, so that a signal reaches the command although it is meant for this shell.
    "$@" <&0 &
    child=$!
    for it in HUP INT QUIT TERM; do
        trap "end_with_child $it" "$it"
    done
    wait "$child" 2>/dev/null
    status=$?
    trap - HUP INT QUIT TERM
    case $status in
        0 | 1 | 64 | 70) ;;
        126 | 127) return ;;
        12[89] | 1[3-9]?) end_by "$((status - 128))" ;;
        *) say_more "$@" ;;
    esac
    trap - EXIT
    exit "$status"
}

# Ends the command, which may ignore keys as what runs in the background does, and then this shell by the signal that it got.
end_with_child() {
    trap '' HUP INT QUIT TERM
    kill -s TERM "$child"
    wait "$child"
    trap - HUP INT QUIT TERM
    end_by "$1"
} 2>/dev/null

end_by() {
    trap - EXIT
    kill -s "$1" "$$"
}

# One more line about a refusal: the word and what would be right, the system's reason, or what REFUSALS says of it.
say_more() {
    files= is_odd= before=
    case " $* " in
        *" boards "* | *"=boards "* | *" --games "*) by_game=1 ;;
        *) by_game= ;;
    esac
    # In the order in which the program reads them.
    for option in --deal --layouts --report --log; do
        for it; do
            case $before in "$option") look_at "$option" "$it" ;; esac
            case $it in "$option"=*) look_at "$option" "${it#*=}" ;; esac
            before=$it
        done
    done
    if [ "$status" -eq 3 ]; then
        [ -z "$files" ] || printf '%s: %s\n' "$called" "$files" >&2
        return
    fi
    # A second run has the line; it ends as soon as the first one did, which has shown what is wrong.
    line=
    case $status in
        4 | 5 | 6 | 11)
            [ -z "$files$is_odd" ] || return
            line=$("$@" 2>&1 >/dev/null </dev/null | tail -n 1)
            ;;
    esac
    shift "$own"
    LC_ALL=C awk -f "$parts/more.awk" -- "$name" "$parts/help.txt" "$pages/docs/REFUSALS.md" "$status" "$line" "$called" "$command" "$@" >&2
}

# Puts into $files that a file can't be read, with the system's reason, and into $is_odd whether it isn't a plain file, so that it
# can't be read twice. If each game has a layout file of its own, it is the first that can't be read.
look_at() {
    if [ -n "$files" ]; then
        return
    elif [ "$1$by_game" = --layouts1 ]; then
        game=1 by_game=
        while [ "$game" -le 64 ] && [ -f "$2.$game" ] && [ -r "$2.$game" ]; do
            game=$((game + 1))
        done
        [ "$game" -gt 64 ] || look_at "$1" "$2.$game"
    elif [ ! -e "$2" ]; then
        files="$1 $2: No such file or directory"
    elif [ -d "$2" ]; then
        files="$1 $2: Is a directory"
    elif [ ! -r "$2" ]; then
        files="$1 $2: Permission denied"
    elif [ ! -f "$2" ]; then
        is_odd=1
    fi
}
