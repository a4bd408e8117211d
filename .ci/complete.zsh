# complete.zsh FOLDER LINE: prints what zsh completes a line with by the functions of a folder, sorted. Without
# a second word it is the zsh within, which writes each word that it adds to the file that GOT names.
if [[ -z $GOT ]]; then
    zmodload zsh/zpty
    export COMPLETIONS=$1 GOT=$PWD/complete.got SELF=${0:A}
    # waits until the last line of the file is this word
    wait_for() { for ((n = 0; n < 1200; n++)); do [[ -e $GOT && $(tail -n 1 $GOT) == $1 ]] && return; sleep 0.05; done; print "zsh did not answer"; exit 1 }
    rm -f $GOT
    zpty within zsh -f -i
    zpty -w within 'source $SELF'
    wait_for ready
    rm -f $GOT
    zpty -w -n within "$2"$'\t'
    wait_for done
    zpty -d within
    grep -v '^done$' $GOT | sort -u
    exit
fi
fpath=($COMPLETIONS $fpath)
autoload -Uz compinit && compinit -u -D
compadd() {
    local -a added
    # with -O, -A or -D it only fills arrays
    if [[ ${@[1,(i)(-|--)]} != *-(O|A|D)\ * ]]; then
        builtin compadd -A added "$@"
        (( $#added )) && print -rl -- $added >>$GOT
    fi
    builtin compadd "$@"
}
tell() { _main_complete; print done >>$GOT; compstate[insert]= compstate[list]=; }
zle -C tell complete-word tell
bindkey '^I' tell
print ready >$GOT
