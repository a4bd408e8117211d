#!/usr/bin/env bash
# complete.bash FOLDER LINE: prints what bash completes a line with by the functions of a folder, sorted: the words, or
# the files where it would take those; and last, behind a >, the line as bash has it then, where one word came. BREAKS
# are the bytes at which bash cuts words, where they are not its own.
folder=$1
cat >complete.rc <<'RC'
COMP_WORDBREAKS=${BREAKS:-$COMP_WORDBREAKS}
source "$COMPLETIONS/clpa.bash"
compopt() {
    [ "$2" != default ] || names=yes
    builtin compopt "$@"
}
tell() {
    names=
    _clpa "$@"
    [ ${#COMPREPLY[@]} = 0 ] || printf '%s\n' "${COMPREPLY[@]}" >>complete.got
    [ -z "$names" ] || [ ${#COMPREPLY[@]} -gt 0 ] || compgen -f -- "$2" >>complete.got
}
complete -F tell clpa
clpa() { printf '>clpa'; printf ' %s' "$@"; }
RC
: >complete.got
printf '%s\t\n' "$2" | COMPLETIONS=$folder TERM=dumb INPUTRC=/dev/null HISTFILE='' bash --rcfile complete.rc -i >complete.line 2>/dev/null
sort complete.got
[ "$(wc -l <complete.got)" != 1 ] || grep -ao '>clpa .*' complete.line
