# Completes the words of epl for fish.

function __epl_codes
    epl explain 2>/dev/null | string replace -rf '^  ([a-z0-9-]+) +(.*)$' '$1\t$2'
end

# Whether this is what comes next in the words of a run: serial, option, fuel, events, evt (the event file) or mon (a program).
function __epl_wants
    set -l words (commandline -opc)
    set -l next mon
    switch "$words[-1]"
        case run
            set next serial
        case --serial
            set next option
        case --fuel
            set next fuel
        case --events
            set next evt
        case '*'
            test "$words[-2]" = --fuel; and set next events
    end
    contains run $words; and test $next = $argv[1]
end

complete -c epl -f
complete -c epl -n __fish_use_subcommand -a run -d 'run monitors over an event file'
complete -c epl -n __fish_use_subcommand -a explain -d 'what a fault means'
complete -c epl -n __fish_use_subcommand -a help -d 'the words'
complete -c epl -n __fish_use_subcommand -l help -d 'the words'
complete -c epl -n __fish_use_subcommand -l version -d 'the version, and whether the program is proved'
complete -c epl -n __fish_use_subcommand -l build -d 'prove and build the program'
complete -c epl -n __fish_use_subcommand -l unproved -d 'run a program of which nothing is proved'
complete -c epl -n '__fish_seen_subcommand_from explain' -a '(__epl_codes)'
complete -c epl -n '__epl_wants serial' -l serial -d 'on one thread'
complete -c epl -n '__epl_wants option' -l fuel -d 'how much each context may do'
complete -c epl -n '__epl_wants option; or __epl_wants events' -l events -d 'the event file'
complete -c epl -n '__epl_wants fuel' -a '1000000 20000000'
complete -c epl -n '__epl_wants evt' -k -a '(__fish_complete_suffix .evt)'
complete -c epl -n '__epl_wants mon' -k -a '(__fish_complete_suffix .mon)'
