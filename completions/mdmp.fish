# What fish completes of a command line of mdmp. Installed as share/fish/vendor_completions.d/mdmp.fish.

# How many words that are no options stand before the one that is completed, the program and the command among them.
function __mdmp_words
    set -l count 0
    set -l is_number 0
    for word in (commandline -opc)
        if test $is_number = 1
            set is_number 0
        else if contains -- $word --window --name --budget --memory --aside
            set is_number 1
        else if not string match -q -- '-*' $word
            set count (math $count + 1)
        end
    end
    echo $count
end

# Whether a file's name stands here: the first word of each command, the second of copy, and each of summary.
function __mdmp_file
    set -l count (__mdmp_words)
    if __fish_seen_subcommand_from copy
        contains $count 2 3
    else if __fish_seen_subcommand_from summary
        test $count -ge 2
    else
        test $count = 2; and __fish_seen_subcommand_from check list hex
    end
end

# Folders, and files that are named as dumps are.
function __mdmp_dumps
    __fish_complete_path (commandline -ct) | string match -ri '^.*(?:/|[.]m?dmp)\t'
end

function __mdmp_type
    test (__mdmp_words) -ge 4; and __fish_seen_subcommand_from copy
end

complete -c mdmp -f
complete -c mdmp -n 'test (__mdmp_words) = 1' -a summary -d 'Print what crashed and where, and whether the file is good'
complete -c mdmp -n 'test (__mdmp_words) = 1' -a check -d 'Tell of each entry of the directory whether it is good'
complete -c mdmp -n 'test (__mdmp_words) = 1' -a list -d 'List the header, the directory and the records'
complete -c mdmp -n 'test (__mdmp_words) = 1' -a hex -d 'Print memory of the dumped process'
complete -c mdmp -n 'test (__mdmp_words) = 1' -a copy -d 'Copy the streams of some types into a new file'
complete -c mdmp -n 'test (__mdmp_words) = 1' -a help -d 'Tell of the program or of a command'
complete -c mdmp -n 'test (__mdmp_words) = 1' -l version -d 'Print the version'
complete -c mdmp -n 'test (__mdmp_words) = 2; and __fish_seen_subcommand_from help' -a 'summary check list hex copy'
complete -c mdmp -l help -d 'Print help'
complete -c mdmp -n '__fish_seen_subcommand_from check' -l parts -d 'Tell of parts outside the file'
complete -c mdmp -n '__fish_seen_subcommand_from list' -l pdb -d 'Tell of symbol files'
complete -c mdmp -n '__fish_seen_subcommand_from summary check list' -l json -d 'Print objects of JSON'
complete -c mdmp -n '__fish_seen_subcommand_from summary check list hex copy' -l window -x -d 'Fetch the file by at most so many bytes'
complete -c mdmp -n '__fish_seen_subcommand_from summary check list hex copy' -l name -x -d 'Read names of at most so many bytes'
complete -c mdmp -n '__fish_seen_subcommand_from summary check list hex copy' -l budget -x -d 'Read at most so many bytes of the file'
complete -c mdmp -n '__fish_seen_subcommand_from summary check list hex copy' -l memory -x -d 'Use at most so many bytes of memory'
complete -c mdmp -n '__fish_seen_subcommand_from list' -l aside -x -d 'Read at most so many bytes of CodeView records'
complete -c mdmp -n '__fish_seen_subcommand_from summary check list hex copy' -l untrusted -d 'Limit what a file from a stranger may cost'
complete -c mdmp -n __mdmp_file -a '(__mdmp_dumps)'
for type in threads:3 modules:4 memory:5 exception:6 system:7 memory64:9 unloaded:14 regions:16 threadnames:24 \
        UnusedStream:0 ThreadListStream:3 ModuleListStream:4 MemoryListStream:5 ExceptionStream:6 \
        SystemInfoStream:7 Memory64ListStream:9 CommentStreamA:10 CommentStreamW:11 \
        UnloadedModuleListStream:14 MiscInfoStream:15 MemoryInfoListStream:16 ThreadNamesStream:24
    set -l parts (string split : $type)
    complete -c mdmp -n __mdmp_type -a $parts[1] -d "Type $parts[2]"
end
