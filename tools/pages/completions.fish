# What tools/pages/completions_of_help.py makes the completions for fish of, as tools/pages/completions.sh has it.
#[walk]
set -g __NAME_rows ROWS

# Prints what is completed for a command's option or argument; fails if it has none of this name.
function __NAME_row
    for row in $__NAME_rows
        string split -m 3 '|' -- $row | read -L of name takes text
        test "x$of" = "x$argv[1]"; and test "x$name" = "x$argv[2]"; and echo -- $takes; and return
    end
    return 1
end

# Prints what is completed, by the words before it: first what the command has, then what stands at this place.
function __NAME_complete
    set -l current (commandline -ct)
    set -l words
    for word in (commandline -opc)[2..]
        string match -rq -- '^(?<front>--[^=]+)=(?<rest>.*)' $word; and set -a words $front = $rest; or set -a words $word
    end
    set -l front
    if string match -rq -- '^(?<front>--[^=]+=)(?<rest>.*)' $current
        set -a words (string trim -rc = -- $front)
        set current $rest
    end
    set -l count 0
    set -l place 1
    set -l command ''
    set -l argument
    set -l options yes
    set -l takes ''
    set -l offset 0
    set -l row
    for word in $words
        set count (math $count + 1)
        if test "x$word" = x=
            continue
        else if test -n "$takes"
            set takes ''
        else if test "x$word" = x--; and set row (__NAME_row $command --)
            test $place -eq 1; or set place (string sub -s 2 -- $row)
            set options
        else if test -n "$options"; and set row (__NAME_row $command $word)
            string match -q '=*' -- $row; and set command (string sub -s 2 -- $row); or set takes $row
        else if test -z "$options"; or not string match -q -- '-?*' $word
            test "$(__NAME_row $command "#$place")" = '<command>'; and set offset $count; and break
            set argument $word
            set place (math $place + 1)
            __NAME_row $command -- >/dev/null; and set options
        end
    end
    if test -n "$takes"
        set options
    else
        set takes (__NAME_row $command "#$place"; or __NAME_row $command '#+')
    end
    test "$takes" = '<command>' -a $offset -eq 0; and set offset (math $count + 1)
    for row in $__NAME_rows
        string split -m 3 '|' -- $row | read -L of name it text
        test -n "$options" -a "x$of" = "x$command"; and not string match -q '*#*' -- $name$it
        and begin
            string match -q -- '-*' $current; or not string match -q -- '-*' $name
        end
        and printf '%s\t%s\n' $name $text
    end
    for it in (string split -n ' ' -- $takes)
        switch $it
            case '<files>'
                __fish_complete_path $current | string replace -r -- '^' "$front"
            case '<command>'
                set -l all (commandline -opc)[(math $offset + 1)..]
                test (count $all) -eq 0; and __fish_complete_command
                or complete -C"$(string join ' ' -- (string escape -- $all) (commandline -ct))"
            case '<>'
                return
            case '<*>'
                __NAME_list $it $argument | string replace -r -- '^' "$front"
            case '*'
                echo -- "$front$it"
        end
    end
end

# Prints the program of a name, if it is no script. The script at the top of the repository would prove and build it first.
function __NAME_program
    set -l program (command -s -- $argv[1])
    set -l built (path dirname -- $program)/crates/NAME/out/NAME
    test -n "$program" -a -x "$built"; and set program $built
    test -n "$program"; and test (head -c 2 -- $program | string collect) != '#!'; and echo -- $program
end

#[seccomptool]
# Prints the filters of the policies on the line, or the calls of the architecture on it: those that the program learns of a log of all
# their numbers. Names with a backslash stand for other bytes.
function __seccomptool_list
    set -l words (commandline -opc)
    set -l program (__seccomptool_program $words[1]); or return
    if test $argv[1] = '<filters>'
        for file in $words[3..]
            test -f "$file"; and $program show --stats -- $file 2>/dev/null | sed -n '/\\\\/d; s/^filter //p'
        end
        return
    end
    set -l arch x86_64
    string match -rq -- '.* (?:-a|--arch)[ =](?<given>\S+)' (string join -- ' ' $words); and set arch $given
    set -l value c000003e
    contains $arch aarch64 arm64; and set value c00000b7
    test $arch = riscv64; and set value c00000f3
    printf "type=1326 audit(0.0:0): arch=$value syscall=%d\n" (seq 0 1023) | $program learn -a $arch 2>/dev/null |
        sed -nE 's/.*"syscall": "([a-z0-9_]+)".*/\1/p'
end

#[seccompc]
# Prints the filters of the policy on the line. Names with a backslash stand for other bytes.
function __seccompc_list
    set -l words (commandline -opc)
    set -l program (__seccompc_program $words[1]); or return
    test -f "$words[4]"; and $program list $words[3] <$words[4] 2>/dev/null | sed -nE '/\\\\/d; s/^filter [0-9]+ //p'
end

#[jail]
# Prints the filters of the policy, after those that are named already. The seccomptool beside the program lists them, or that of the path.
# Names with a comma can't be named, and those with a backslash stand for other bytes.
function __jail_list
    set -l program (command -s -- (commandline -opc)[1])
    set -l tool (path dirname -- $program)/seccomptool
    test -n "$program" -a -x "$tool"; or set tool (command -s seccomptool)
    test -n "$tool" -a -f "$argv[2]"; and test (head -c 2 -- $tool | string collect) != '#!'; or return
    set -l front (string match -r -- '.*,' (commandline -ct))
    $tool show --stats -- $argv[2] 2>/dev/null | sed -n '/[\\\\,]/d; s/^filter //p' | string replace -r -- '^' "$front"
end

#[fish]
complete -c NAME -f -a '(__NAME_complete)'
