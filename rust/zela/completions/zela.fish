# Completion of zela's words for fish.

function __zela_runs # COMMAND..: whether the command is one of these
    set -l words (commandline -opc)
    contains -- "$words[2]" $argv
end

function __zela_has # COUNT: whether so many words stand before the cursor's
    test (count (commandline -opc)) -eq $argv[1]
end

complete -c zela -f
complete -c zela -n '__zela_has 1' -a check -d 'is it whole? every bad place of each file'
complete -c zela -n '__zela_has 1' -a fix -d 'for damage: leave bad frames out, or repeat the last good one'
complete -c zela -n '__zela_has 1' -a reseal -d 'for your own edits: new checksums over the bytes as they are'
complete -c zela -n '__zela_has 1' -a bits -d 'show some bits of a file'
complete -c zela -n '__zela_has 1' -a help -d 'help, of a command if there is one'
complete -c zela -n '__zela_has 1' -s V -l version -d 'the version'
complete -c zela -n '__zela_has 1; or __zela_runs check fix reseal bits' -s h -l help -d help
complete -c zela -n '__zela_has 2; and __zela_runs help' -a 'check fix reseal bits help'

complete -c zela -n '__zela_runs check fix reseal bits' -F
complete -c zela -n '__zela_runs check fix reseal bits' -l format -x -a 'text json jsonl csv' -d 'the form of the report'
complete -c zela -n '__zela_runs check fix reseal' -s q -l quiet -d 'no report and no progress bar: the status tells'
complete -c zela -n '__zela_runs check fix reseal' -s a -l all -d 'every place, and not the first ten'
complete -c zela -n '__zela_runs check' -l allow-changes -d 'a change of the format is told, and is not bad'
complete -c zela -n '__zela_runs check' -s r -l recursive -d 'the files in folders too'
complete -c zela -n '__zela_runs check' -s j -l jobs -x -d 'so many files at once'
complete -c zela -n '__zela_runs fix reseal' -s n -l dry-run -d 'tell what would be done, and write nothing'
complete -c zela -n '__zela_runs fix' -l bad -x -a 'drop repeat' -d 'what becomes of bad frames'
complete -c zela -n '__zela_runs reseal' -s i -l in-place -d 'reseal the file itself'
