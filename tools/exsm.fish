# Completes the words of exsm and of its tools in fish.

function __exsm_kept -d 'names that a volume keeps, told by a reader of its bytes'
    set -l words (commandline -opc)
    test (count $words) -ge 2; and exsm_volume.py $words[2] list -0 $argv 2>/dev/null | string split0
end

function __exsm_at -d 'whether so many words stand before the one that is completed'
    test (count (commandline -opc)) -eq $argv[1]
end

function __exsm_behind -d 'whether the word of a place is one of these'
    set -l words (commandline -opc)
    test (count $words) -ge $argv[1]; and contains -- $words[$argv[1]] $argv[2..-1]
end

complete -c exsm -f -n '__exsm_at 1' -a format -d 'makes the empty volume'
complete -c exsm -f -n '__exsm_at 1' -a run -d 'steps the script on standard input'
complete -c exsm -f -n '__exsm_at 1' -a check -d 'opens, and counts'
complete -c exsm -f -n '__exsm_at 1' -a gen -d 'steps generated lines'
complete -c exsm -f -n '__exsm_at 1' -a clients -d 'steps the scripts of several clients'
complete -c exsm -f -n '__exsm_at 1' -a dump -d 'writes the whole history as a stream'
complete -c exsm -f -n '__exsm_at 1' -a load -d 'reads a stream into an empty volume'
complete -c exsm -f -n '__exsm_at 1' -a pack -d 'moves objects to the front of the volume'
complete -c exsm -f -n '__exsm_at 1' -a 'help --help' -d 'tells all words'
complete -c exsm -f -n '__exsm_at 1' -a --version -d 'tells the version'
complete -c exsm -f -n '__exsm_behind 2 help' -a 'format run check gen clients dump load pack'
complete -c exsm -n '__exsm_behind 2 format' -x -l page-size -a '512 1024 2048 4096 8192'
complete -c exsm -n '__exsm_behind 2 format' -x -l pages
complete -c exsm -n '__exsm_behind 2 format' -x -l segs
complete -c exsm -n '__exsm_behind 2 format' -x -l seg-len
complete -c exsm -n '__exsm_behind 2 format' -x -l fan
complete -c exsm -n '__exsm_behind 2 run clients' -x -l max-bytes
complete -c exsm -n '__exsm_behind 2 gen' -x -l seed
complete -c exsm -n '__exsm_behind 2 gen' -x -l count
complete -c exsm -n '__exsm_behind 2 gen' -l anyway -d 'also where the volume holds data'

complete -c exsm_new.py -n '__exsm_at 2' -x -a '80M 1G 16G'
complete -c exsm_new.py -x -l for -a 'mixed large small'
complete -c exsm_files.py -n '__exsm_at 2' -x -a 'put get ls verify mv rm'
complete -c exsm_files.py -n '__exsm_behind 3 get mv rm verify' -f -a '(__exsm_kept)'
complete -c exsm_versions.py -n '__exsm_at 2' -x -a 'tree name unname freeze diff back'
complete -c exsm_versions.py -n '__exsm_behind 3 tree name unname freeze diff back' -f -a '(__exsm_kept --versions)'
complete -c exsm_volume.py -n '__exsm_at 2' -x -a 'check list get save mend'
complete -c exsm_stream.py -n '__exsm_at 2' -x -a 'check list get make'
complete -c exsm_serve.py -x -l idle
complete -c exsm_serve.py -x -l wait
