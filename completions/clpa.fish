# Completions of clpa for fish: the archive, the command, its options, and the names of files.

# The words behind the program's name, without the one that is written
function __clpa_words
    set -l words (commandline -opc)
    string join \n -- $words[2..-1]
end

# Whether the command is the next word
function __clpa_wants_command
    test (count (__clpa_words)) -eq 1
end

# Whether a word of this command is the next one
function __clpa_in
    set -l words (__clpa_words)
    test (count $words) -ge 2; and contains -- $words[2] $argv
end

# Whether the log of `show` or `scan` is the next word
function __clpa_wants_log
    set -l words (__clpa_words)
    test (count $words) -eq 2 -a "$words[2]" = show; or test (count $words) -eq 3 -a "$words[2]" = scan
end

complete -c clpa -f
complete -c clpa -n 'test (count (__clpa_words)) -eq 0' -F
complete -c clpa -n __clpa_wants_command -a bench -d 'make an archive of generated logs'
complete -c clpa -n __clpa_wants_command -a check -d 'tell whether an archive is legal'
complete -c clpa -n __clpa_wants_command -a count -d 'count the messages of an archive that match'
complete -c clpa -n __clpa_wants_command -a create -d 'make an empty archive'
complete -c clpa -n __clpa_wants_command -a decode -d 'print the bytes of a file'
complete -c clpa -n __clpa_wants_command -a files -d 'list the files of an archive'
complete -c clpa -n __clpa_wants_command -a ingest -d 'add logs to an archive'
complete -c clpa -n __clpa_wants_command -a merge -d 'add the files of a second archive'
complete -c clpa -n __clpa_wants_command -a scan -d 'print the messages of a log that match'
complete -c clpa -n __clpa_wants_command -a search -d 'print the messages of an archive that match'
complete -c clpa -n __clpa_wants_command -a show -d 'print a log with its variables marked'
complete -c clpa -n __clpa_wants_command -a upgrade -d 'make an archive of the newest version of an older one'
complete -c clpa -n __clpa_wants_log -F
complete -c clpa -n '__clpa_in ingest' -F
complete -c clpa -n '__clpa_in create' -l bytes -x -d 'how many bytes it may have'
complete -c clpa -n '__clpa_in create' -l format -x -a '1 2 3' -d 'the version of its format'
complete -c clpa -n '__clpa_in create' -l types -x -d 'how many log types it may have'
complete -c clpa -n '__clpa_in create' -l words -x -d 'how many dictionary words it may have'
complete -c clpa -n '__clpa_in ingest' -l segment -x -d 'how many messages a segment has at most'
complete -c clpa -n '__clpa_in ingest' -l watch -x -d 'print the messages that match as they are sealed'
complete -c clpa -n '__clpa_in count ingest search' -l workers -x -d 'how many threads'
complete -c clpa -n '__clpa_in count' -l by -x -a 'minute type' -d 'what is counted by'
complete -c clpa -n '__clpa_in count search' -l from -x -d 'the first moment'
complete -c clpa -n '__clpa_in count search' -l stats -d 'print the counts of the search too'
complete -c clpa -n '__clpa_in count search' -l to -x -d 'the last moment'
