# Completion for pcml in fish: install -Dm644 editors/pcml.fish ~/.config/fish/completions/pcml.fish
# Made by tools/completion.

# Whether the command is one of these.
function __pcml_is
    set -l words (commandline -opc)
    test (count $words) -gt 1; and contains -- $words[2] $argv
end

# Whether there is no command yet.
function __pcml_is_bare
    test (count (commandline -opc)) -eq 1
end

# The script that the line names: the first word behind the command that is neither an option nor its value.
function __pcml_script
    set -l before
    for word in (commandline -op)[3..]
        if not contains -- "$before" --workers --rows --seasons --journal --need --from --to --only --as --limit --left --never --of; and not string match -q -- '-*' $word
            echo $word
            return
        end
        set before $word
    end
end

# The names of its processes. What is no file, or longer than a script may be, has none.
function __pcml_processes
    set -l script (__pcml_script | string replace -r '^~/' "$HOME/")
    if test -f "$script"; and test -r "$script"; and test (wc -c <$script) -le 65536
        LC_ALL=C tr -s '\t\r\n' ' ' <"$script" | LC_ALL=C grep -aoE '\bprocess [A-Za-z][A-Za-z0-9_]*' | cut -d' ' -f2
    end
end

# Of names with commas between the one at the cursor.
function __pcml_names
    set -l named (commandline -ct | string replace -r '^--[a-z]+=' '' | string match -r '^.*,')
    test -n "$named"; or echo all
    for name in (__pcml_processes)
        echo "$named$name"
    end
end

complete -c pcml -f
complete -c pcml -s h -l help -d 'Prints the help'
complete -c pcml -n __pcml_is_bare -l prove -d 'Proves and builds the program'
complete -c pcml -n __pcml_is_bare -a run -d 'Runs the processes of a script'
complete -c pcml -n __pcml_is_bare -a replay -d 'Replays a journal against its script'
complete -c pcml -n __pcml_is_bare -a why -d 'Tells why each process stands where a journal leads it'
complete -c pcml -n __pcml_is_bare -a chart -d 'Draws a journal against its script'
complete -c pcml -n __pcml_is_bare -a next -d 'Prints the line of each commit that may come next where a journal leads its script'
complete -c pcml -n __pcml_is_bare -a outcomes -d 'Tells all that a script can come to'
complete -c pcml -n __pcml_is_bare -a check -d 'Checks the text of a script'
complete -c pcml -n __pcml_is_bare -a play -d 'Plays the steps of a schedule'
complete -c pcml -n __pcml_is_bare -a stats -d 'Prints how often each process sent, received and was committed alone in a journal'
complete -c pcml -n __pcml_is_bare -a explain -d 'Prints what fault N means, the smallest file that gives it or how it comes about'
complete -c pcml -n __pcml_is_bare -a manual -d 'Prints this page'
complete -c pcml -n __pcml_is_bare -a version -d 'Prints the version'
complete -c pcml -n __pcml_is_bare -a meet -d 'Sends one number from a thread to another'
complete -c pcml -n __pcml_is_bare -a help -d 'Prints the help of the program or of a command'
complete -c pcml -n '__pcml_is run replay why chart next outcomes check play stats' -F
complete -c pcml -n '__pcml_is explain' -a '1 2 3 4 5 6 7 8 11 12 13 14 15 16 21 22 23 31 32 unset kind range shape waiting spent unstarted stranded left faulted printed deadlock nack journal stamp tail lawful maximal outcome configuration'
complete -c pcml -n '__pcml_is help' -a 'run replay why chart next outcomes check play stats explain manual version meet help'
complete -c pcml -n '__pcml_is run' -l workers -x -a '1 2 4 8 16' -d 'How many workers'
complete -c pcml -n '__pcml_is run' -l rows -x -a '256 1024' -d 'How many syncs a process may make'
complete -c pcml -n '__pcml_is run' -l seasons -x -d 'How many tables of G rows a process a run may take'
complete -c pcml -n '__pcml_is run' -l journal -r -F -d 'Writes the lines of the journal to the file TO too'
complete -c pcml -n '__pcml_is run' -l quiet -d 'Prints no journal'
complete -c pcml -n '__pcml_is run' -l why -d 'Tells behind the counts of a run why each process stands where it does'
complete -c pcml -n '__pcml_is run' -l need -x -a '(__pcml_names)' -d 'Processes that have to end'
complete -c pcml -n '__pcml_is replay' -l rows -x -a '256 1024' -d 'How many syncs a process may make'
complete -c pcml -n '__pcml_is replay' -l seasons -x -d 'How many tables of G rows a process a run may take'
complete -c pcml -n '__pcml_is why' -l rows -x -a '256 1024' -d 'How many syncs a process may make'
complete -c pcml -n '__pcml_is why' -l seasons -x -d 'How many tables of G rows a process a run may take'
complete -c pcml -n '__pcml_is why' -l short -d 'The first fault of a text is one line'
complete -c pcml -n '__pcml_is chart' -l rows -x -a '256 1024' -d 'How many syncs a process may make'
complete -c pcml -n '__pcml_is chart' -l seasons -x -d 'How many tables of G rows a process a run may take'
complete -c pcml -n '__pcml_is chart' -l from -x -d 'The first and the last stamp that is drawn'
complete -c pcml -n '__pcml_is chart' -l to -x -d 'The first and the last stamp that is drawn'
complete -c pcml -n '__pcml_is chart' -l only -x -a '(__pcml_names)' -d 'Names of processes'
complete -c pcml -n '__pcml_is chart' -l as -x -a 'mermaid svg' -d 'svg, as it is without the option'
complete -c pcml -n '__pcml_is next' -l rows -x -a '256 1024' -d 'How many syncs a process may make'
complete -c pcml -n '__pcml_is outcomes' -l rows -x -a '256 1024' -d 'How many syncs a process may make'
complete -c pcml -n '__pcml_is outcomes' -l limit -x -d 'How many states are seen'
complete -c pcml -n '__pcml_is outcomes' -l waiting -d 'Tells only the outcomes in which some process that is told is left waiting'
complete -c pcml -n '__pcml_is outcomes' -l need -x -a '(__pcml_names)' -d 'Processes that have to end'
complete -c pcml -n '__pcml_is outcomes' -l left -x -a '(__pcml_names)' -d 'Tells of outcomes nothing but who of these processes'
complete -c pcml -n '__pcml_is outcomes' -l faults -d 'Tells of outcomes nothing but which process faults'
complete -c pcml -n '__pcml_is outcomes' -l never -x -a '(__pcml_processes)=' -d 'Tells of outcomes nothing but whether the process of this name ever prints the value'
complete -c pcml -n '__pcml_is outcomes' -l only -x -a '(__pcml_names)' -d 'Names of processes'
complete -c pcml -n '__pcml_is outcomes' -l first -d 'Stops at the first outcome that is told'
complete -c pcml -n '__pcml_is outcomes' -l journal -r -F -d 'Writes the lines of the journal to the file TO too'
complete -c pcml -n '__pcml_is outcomes' -l of -x -d 'The number of the outcome whose journal is written'
complete -c pcml -n '__pcml_is stats' -l rows -x -a '256 1024' -d 'How many syncs a process may make'
complete -c pcml -n '__pcml_is stats' -l seasons -x -d 'How many tables of G rows a process a run may take'
