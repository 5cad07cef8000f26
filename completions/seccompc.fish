# Completions of seccompc for fish: install it in a folder of $fish_complete_path.
# Made by tools/make-man. SPDX-License-Identifier: Apache-2.0 OR BSD-3-Clause

set -g __seccompc_rows '|probe|=probe|' \
    'probe|#1|x86_64 aarch64 riscv64|' \
    'probe|#2|<>|' \
    'probe|#3|<>|' \
    'probe|#4|<>|' \
    '|list|=list|' \
    'list|#1|x86_64 aarch64 riscv64|' \
    '|run|=run|' \
    'run|#1|x86_64 aarch64 riscv64|' \
    'run|#2|<files>|' \
    'run|#3|<filters>|'

# Prints what is completed for a command's option or argument; fails if it has none of this name.
function __seccompc_row
    for row in $__seccompc_rows
        string split -m 3 '|' -- $row | read -L of name takes text
        test "x$of" = "x$argv[1]"; and test "x$name" = "x$argv[2]"; and echo -- $takes; and return
    end
    return 1
end

# Prints what is completed, by the words before it: first what the command has, then what stands at this place.
function __seccompc_complete
    set -l current (commandline -ct)
    set -l words
    for word in (commandline -opc)[2..]
        string match -rq -- '^(?<front>--[^=]+)=(?<rest>.*)' $word; and set -a words $front = $rest; or set -a words $word
    end
    set -l front
    if string match -rq -- '^(?<front>--[^=]+=)(?<rest>.*)' $current
        set -a words (string trim -rc = -- $front)
        set current $rest
    end
    set -l count 0
    set -l place 1
    set -l command ''
    set -l argument
    set -l options yes
    set -l takes ''
    set -l offset 0
    set -l row
    for word in $words
        set count (math $count + 1)
        if test "x$word" = x=
            continue
        else if test -n "$takes"
            set takes ''
        else if test "x$word" = x--; and set row (__seccompc_row $command --)
            test $place -eq 1; or set place (string sub -s 2 -- $row)
            set options
        else if test -n "$options"; and set row (__seccompc_row $command $word)
            string match -q '=*' -- $row; and set command (string sub -s 2 -- $row); or set takes $row
        else if test -z "$options"; or not string match -q -- '-?*' $word
            test "$(__seccompc_row $command "#$place")" = '<command>'; and set offset $count; and break
            set argument $word
            set place (math $place + 1)
            __seccompc_row $command -- >/dev/null; and set options
        end
    end
    if test -n "$takes"
        set options
    else
        set takes (__seccompc_row $command "#$place"; or __seccompc_row $command '#+')
    end
    test "$takes" = '<command>' -a $offset -eq 0; and set offset (math $count + 1)
    for row in $__seccompc_rows
        string split -m 3 '|' -- $row | read -L of name it text
        test -n "$options" -a "x$of" = "x$command"; and not string match -q '*#*' -- $name$it
        and begin
            string match -q -- '-*' $current; or not string match -q -- '-*' $name
        end
        and printf '%s\t%s\n' $name $text
    end
    for it in (string split -n ' ' -- $takes)
        switch $it
            case '<files>'
                __fish_complete_path $current | string replace -r -- '^' "$front"
            case '<command>'
                set -l all (commandline -opc)[(math $offset + 1)..]
                test (count $all) -eq 0; and __fish_complete_command
                or complete -C"$(string join ' ' -- (string escape -- $all) (commandline -ct))"
            case '<>'
                return
            case '<*>'
                __seccompc_list $it $argument | string replace -r -- '^' "$front"
            case '*'
                echo -- "$front$it"
        end
    end
end

# Prints the program of a name, if it is no script. The script at the top of the repository would prove and build it first.
function __seccompc_program
    set -l program (command -s -- $argv[1])
    set -l built (path dirname -- $program)/crates/seccompc/out/seccompc
    test -n "$program" -a -x "$built"; and set program $built
    test -n "$program"; and test (head -c 2 -- $program | string collect) != '#!'; and echo -- $program
end

# Prints the filters of the policy on the line. Names with a backslash stand for other bytes.
function __seccompc_list
    set -l words (commandline -opc)
    set -l program (__seccompc_program $words[1]); or return
    test -f "$words[4]"; and $program list $words[3] <$words[4] 2>/dev/null | sed -nE '/\\\\/d; s/^filter [0-9]+ //p'
end

complete -c seccompc -f -a '(__seccompc_complete)'
