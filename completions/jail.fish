# Completions of jail for fish: install it in a folder of $fish_complete_path.
# Made by tools/make-man. SPDX-License-Identifier: Apache-2.0 OR BSD-3-Clause

set -g __jail_rows '|--tree||compile the policy\'s filters in the tree layout' \
    '|--log||log calls that aren\'t allowed, including those with an errno' \
    '|--close-fds||close the descriptors above 2; else the command inherits them' \
    '|--help||print this' \
    '|--version||print the version' \
    '|--|#3|' \
    '|#1|<files>|' \
    '|#2|<filters>|' \
    '|#3|<command>|' \
    '|--program|=--program|' \
    '--program|--|#2|' \
    '--program|#1|<files>|' \
    '--program|#2|<command>|' \
    '|--oci|=--oci|' \
    '--oci|--|#2|' \
    '--oci|--cap|<>|' \
    '--oci|--kernel|<>|' \
    '--oci|--runtime|<>|' \
    '--oci|#1|<files>|' \
    '--oci|#2|<command>|'

# Prints what is completed for a command's option or argument; fails if it has none of this name.
function __jail_row
    for row in $__jail_rows
        string split -m 3 '|' -- $row | read -L of name takes text
        test "x$of" = "x$argv[1]"; and test "x$name" = "x$argv[2]"; and echo -- $takes; and return
    end
    return 1
end

# Prints what is completed, by the words before it: first what the command has, then what stands at this place.
function __jail_complete
    set -l current (commandline -ct)
    set -l words
    for word in (commandline -opc)[2..]
        string match -rq -- '^(?<front>--[^=]+)=(?<rest>.*)' $word; and set -a words $front = $rest; or set -a words $word
    end
    set -l front
    if string match -rq -- '^(?<front>--[^=]+=)(?<rest>.*)' $current
        set -a words (string trim -rc = -- $front)
        set current $rest
    end
    set -l count 0
    set -l place 1
    set -l command ''
    set -l argument
    set -l options yes
    set -l takes ''
    set -l offset 0
    set -l row
    for word in $words
        set count (math $count + 1)
        if test "x$word" = x=
            continue
        else if test -n "$takes"
            set takes ''
        else if test "x$word" = x--; and set row (__jail_row $command --)
            test $place -eq 1; or set place (string sub -s 2 -- $row)
            set options
        else if test -n "$options"; and set row (__jail_row $command $word)
            string match -q '=*' -- $row; and set command (string sub -s 2 -- $row); or set takes $row
        else if test -z "$options"; or not string match -q -- '-?*' $word
            test "$(__jail_row $command "#$place")" = '<command>'; and set offset $count; and break
            set argument $word
            set place (math $place + 1)
            __jail_row $command -- >/dev/null; and set options
        end
    end
    if test -n "$takes"
        set options
    else
        set takes (__jail_row $command "#$place"; or __jail_row $command '#+')
    end
    test "$takes" = '<command>' -a $offset -eq 0; and set offset (math $count + 1)
    for row in $__jail_rows
        string split -m 3 '|' -- $row | read -L of name it text
        test -n "$options" -a "x$of" = "x$command"; and not string match -q '*#*' -- $name$it
        and begin
            string match -q -- '-*' $current; or not string match -q -- '-*' $name
        end
        and printf '%s\t%s\n' $name $text
    end
    for it in (string split -n ' ' -- $takes)
        switch $it
            case '<files>'
                __fish_complete_path $current | string replace -r -- '^' "$front"
            case '<command>'
                set -l all (commandline -opc)[(math $offset + 1)..]
                test (count $all) -eq 0; and __fish_complete_command
                or complete -C"$(string join ' ' -- (string escape -- $all) (commandline -ct))"
            case '<>'
                return
            case '<*>'
                __jail_list $it $argument | string replace -r -- '^' "$front"
            case '*'
                echo -- "$front$it"
        end
    end
end

# Prints the program of a name, if it is no script. The script at the top of the repository would prove and build it first.
function __jail_program
    set -l program (command -s -- $argv[1])
    set -l built (path dirname -- $program)/crates/jail/out/jail
    test -n "$program" -a -x "$built"; and set program $built
    test -n "$program"; and test (head -c 2 -- $program | string collect) != '#!'; and echo -- $program
end

# Prints the filters of the policy, after those that are named already. The seccomptool beside the program lists them, or that of the path.
# Names with a comma can't be named, and those with a backslash stand for other bytes.
function __jail_list
    set -l program (command -s -- (commandline -opc)[1])
    set -l tool (path dirname -- $program)/seccomptool
    test -n "$program" -a -x "$tool"; or set tool (command -s seccomptool)
    test -n "$tool" -a -f "$argv[2]"; and test (head -c 2 -- $tool | string collect) != '#!'; or return
    set -l front (string match -r -- '.*,' (commandline -ct))
    $tool show --stats -- $argv[2] 2>/dev/null | sed -n '/[\\\\,]/d; s/^filter //p' | string replace -r -- '^' "$front"
end

complete -c jail -f -a '(__jail_complete)'
