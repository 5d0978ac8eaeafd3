# Completes the words of ioac in fish: commands, options, files, and the compositions of a source that stands in the line.

# Whether the line has no command yet
function __ioac_bare
    test (count (commandline -opc)) -eq 1
end

# Whether a command comes next: the line's, or the one to help with
function __ioac_wants_command
    set -l words (commandline -opc)
    __ioac_bare; or test "$words[2..]" = help
end

# Whether the line has one of these commands
function __ioac_of
    set -l words (commandline -opc)
    test (count $words) -gt 1; and contains -- $words[2] $argv
end

# The names of the compositions of those words that are files. An object has none to choose from.
function __ioac_compositions
    for word in (commandline -o)
        test -f $word; and sed -n 's/^ *composition \([A-Za-z0-9_]*\).*/\1/p' $word 2>/dev/null
    end
end

complete -c ioac -f
complete -c ioac -n __ioac_wants_command -a check -d 'Check a source, or verify an object'
complete -c ioac -n __ioac_wants_command -a compile -d 'Put the object of a composition in a file'
complete -c ioac -n __ioac_wants_command -a dump -d 'Print the tables and the code of an object'
complete -c ioac -n __ioac_wants_command -a replay -d 'Replay a list of actions, or a log'
complete -c ioac -n __ioac_wants_command -a log -d 'Perform a list of actions, and print the log'
complete -c ioac -n __ioac_wants_command -a run -d 'Run a composition by chance'
complete -c ioac -n __ioac_wants_command -a monitor -d 'Tell whether a specification accepts a log'
complete -c ioac -n __ioac_wants_command -a watch -d 'Tell which specifications refuse an action of a stream'
complete -c ioac -n __ioac_wants_command -a chart -d 'Draw a log as a sequence diagram'
complete -c ioac -n __ioac_wants_command -a graph -d 'Draw a composition as a graph'
complete -c ioac -n __ioac_wants_command -a explain -d 'Say what a printed text means'
complete -c ioac -n __ioac_wants_command -a library -d 'Print the library of link protocols'
complete -c ioac -n __ioac_wants_command -a help -d 'Print the help of the program, or of a command'
complete -c ioac -n __ioac_bare -l help -d 'Print help'
complete -c ioac -n __ioac_bare -l version -d 'Print the version'
complete -c ioac -n '__ioac_of check compile dump replay log run monitor watch chart graph' -F

complete -c ioac -n '__ioac_of check' -l compositions -d 'Compose each composition, too'
complete -c ioac -n '__ioac_of compile replay log run monitor watch chart graph' -l comp -x -a '(__ioac_compositions)' -d 'The composition to take'
complete -c ioac -n '__ioac_of replay log' -l log -d 'Read a log'
complete -c ioac -n '__ioac_of replay' -l invariants -d 'Ask for the invariants'
complete -c ioac -n '__ioac_of replay' -l states -d 'Print the variables behind the end'
complete -c ioac -n '__ioac_of replay' -l enabled -d 'Print what is enabled behind the end'
complete -c ioac -n '__ioac_of replay run' -l coverage -d 'Tell how often entries are performed, and arms and bodies taken'
complete -c ioac -n '__ioac_of monitor' -l strict -d 'Tell what would be passed over'
complete -c ioac -n '__ioac_of replay run monitor watch' -l json -d 'Print JSON objects'
complete -c ioac -n '__ioac_of replay log' -l until -x -d 'Stop after so many actions'
complete -c ioac -n '__ioac_of watch' -l first -d 'End at the first refusal'
complete -c ioac -n '__ioac_of chart' -l from -x -d 'Index of the first entry to draw'
complete -c ioac -n '__ioac_of chart' -l to -x -d 'Index of the last entry to draw'
complete -c ioac -n '__ioac_of chart' -l without -x -d 'A name whose actions are not drawn'
complete -c ioac -n '__ioac_of run' -l alone -d 'Take turns on one thread'
complete -c ioac -n '__ioac_of run' -l turns -x -d 'Turns of each worker'
complete -c ioac -n '__ioac_of run' -l seed -x -d '64 hexadecimal digits'
complete -c ioac -n '__ioac_of run' -l words -r -F -d 'A file with words'
complete -c ioac -n '__ioac_of run' -l seeds -x -d 'Numbers of seeds, as 1..500'
complete -c ioac -n '__ioac_of run' -l monitor -x -a '(__ioac_compositions)' -d 'A specification that is asked of each run'
complete -c ioac -n '__ioac_of run' -l invariants -d 'Ask each run for the invariants'
complete -c ioac -n '__ioac_of run' -l keep -r -F -d 'A file for the shortest log that is refused'
complete -c ioac -n '__ioac_of run' -l inputs -r -F -d 'A file with a list of inputs'
complete -c ioac -n '__ioac_of run' -l resume -r -F -d 'A file with the log to go on from'
complete -c ioac -n '__ioac_of run' -l log -d 'Print the log'
complete -c ioac -n '__ioac_of run' -l reports -d 'Tell what became of the turns'
complete -c ioac -n '__ioac_of check compile dump replay log run monitor watch chart graph explain library' -l explain -d 'Say more of the outcome'
complete -c ioac -n '__ioac_of check compile dump replay log run monitor watch chart graph explain library' -l help -d 'Print help'
