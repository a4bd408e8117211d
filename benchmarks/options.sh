# Sourced by the scripts of this folder: takes `--format V` out of the words, wherever it stands and as often as it
# comes. `formats` has what the scripts in Python are given, and `words` the other words.
formats=()
words=()
while [ $# -gt 0 ]; do
    case $1 in
        --format)
            formats+=(--format "${2:-}")
            shift
            ;;
        --format=*) formats+=("$1") ;;
        *) words+=("$1") ;;
    esac
    shift || true
done
