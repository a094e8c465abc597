# Sourced by scripts that make files where they are old.

# Whether a file is not there, or older than what `find` finds by the words after it.
is_old() { # FILE WORD...
    [ -f "$1" ] || return 0
    made=$1
    shift
    newer=$(find "$@" -newer "$made" -print -quit)
    [ -n "$newer" ]
}
