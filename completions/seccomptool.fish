# Completions of seccomptool for fish: install it in a folder of $fish_complete_path.
# Made by tools/make-man. SPDX-License-Identifier: Apache-2.0 OR BSD-3-Clause

set -g __seccomptool_rows '|check|=check|Print what is wrong with a policy or a profile, and where, or else its warnings' \
    '|compile|=compile|Write the program of a filter or of a profile' \
    '|show|=show|Print programs, with notes on their instructions' \
    '|explain|=explain|Print what is decided for calls, and why' \
    '|diff|=diff|Print the calls that OLD and NEW decide differently' \
    '|stack|=stack|Write one program that answers as all SUBJECTs do if they hold together' \
    '|learn|=learn|Print a policy of the calls that a trace has' \
    '|call|=call|Print the name and the number of a call, or write its struct seccomp_data' \
    '|help|=help|Print this message or the help of the given subcommand(s)' \
    'help|#1|check compile show explain diff stack learn call help|' \
    '|-h||Print help' \
    '|--help||Print help' \
    '|-V||Print version' \
    '|--version||Print version' \
    'check|-a|x86_64 aarch64 riscv64 amd64 arm64|The architecture [default: x86_64]' \
    'check|--arch|x86_64 aarch64 riscv64 amd64 arm64|The architecture [default: x86_64]' \
    'check|--oci||Read each text as a profile of a container runtime, whatever it contains' \
    'check|--cap|<>|Capabilities of a profile\'s container, such as CAP_SYS_ADMIN,CAP_BPF; all; docker-default; podman-default' \
    'check|--kernel|<>|The kernel version for a profile, such as 6.1; without it, newer than any' \
    'check|--runtime|crun runc|The runtime of a profile\'s container [default: crun]' \
    'check|--deny-warnings||End with exit status 1 if there is a warning' \
    'check|--allow|fake-success errno-too-large endless-retry trace-without-tracer allows-by-default denies-everything high-half-ignored value-outside-mask always-holds never-holds high-half-evades flag-evades condition-evaded pointer-compared signed-compared kills-exit clone-by-clone3 no-execve no-restart sibling-allowed crate-differs unreachable-entry redundant-entry undecided-entry abi-evades no-effect open-order refused-by-libseccomp libseccomp-miscompiles runtimes-differ unknown-key|Don\'t print the warnings of this code' \
    'check|--format|text gcc json|How errors and warnings are written: for people, in lines as gcc\'s, or as JSON' \
    'check|--json||Write the answer as one JSON object' \
    'check|--list||Print what each warning code means, and check nothing' \
    'check|-v||List the names of a profile that are left out' \
    'check|--verbose||List the names of a profile that are left out' \
    'check|-h||Print help' \
    'check|--help||Print help' \
    'check|#+|<files> -|' \
    'compile|-a|x86_64 aarch64 riscv64 amd64 arm64|The architecture [default: x86_64]' \
    'compile|--arch|x86_64 aarch64 riscv64 amd64 arm64|The architecture [default: x86_64]' \
    'compile|--oci||Read each text as a profile of a container runtime, whatever it contains' \
    'compile|--cap|<>|Capabilities of a profile\'s container, such as CAP_SYS_ADMIN,CAP_BPF; all; docker-default; podman-default' \
    'compile|--kernel|<>|The kernel version for a profile, such as 6.1; without it, newer than any' \
    'compile|--runtime|crun runc|The runtime of a profile\'s container [default: crun]' \
    'compile|-f|<filters>|The name of the filter; optional if the policy has only one' \
    'compile|--filter|<filters>|The name of the filter; optional if the policy has only one' \
    'compile|--layout|linear tree|How a program finds a call\'s rules: one call after the other, or by a tree of tests [default: tree]' \
    'compile|--format|raw listing c|How the program is written: as bytes, as a listing, or as a C initializer [default: raw]' \
    'compile|--json||Write the answer as one JSON object' \
    'compile|-o|<files>|Write the program to FILE instead of standard output' \
    'compile|--output|<files>|Write the program to FILE instead of standard output' \
    'compile|-q||Don\'t print the number of warnings' \
    'compile|--quiet||Don\'t print the number of warnings' \
    'compile|-v||List the names of a profile that are left out' \
    'compile|--verbose||List the names of a profile that are left out' \
    'compile|--strict||Reject a profile that names calls which the architecture doesn\'t have' \
    'compile|-h||Print help' \
    'compile|--help||Print help' \
    'compile|#1|<files> -|' \
    'show|-a|x86_64 aarch64 riscv64 amd64 arm64|The architecture [default: x86_64]' \
    'show|--arch|x86_64 aarch64 riscv64 amd64 arm64|The architecture [default: x86_64]' \
    'show|--oci||Read each text as a profile of a container runtime, whatever it contains' \
    'show|--cap|<>|Capabilities of a profile\'s container, such as CAP_SYS_ADMIN,CAP_BPF; all; docker-default; podman-default' \
    'show|--kernel|<>|The kernel version for a profile, such as 6.1; without it, newer than any' \
    'show|--runtime|crun runc|The runtime of a profile\'s container [default: crun]' \
    'show|-f|<filters>|The name of the filter to show; without it all filters are shown' \
    'show|--filter|<filters>|The name of the filter to show; without it all filters are shown' \
    'show|--layout|linear tree|How a program finds a call\'s rules: one call after the other, or by a tree of tests [default: tree]' \
    'show|--stats||Print how long the programs are, and how many steps they take' \
    'show|--json||Write the answer as one JSON object' \
    'show|-h||Print help' \
    'show|--help||Print help' \
    'show|#1|<files> -|' \
    'explain|-a|x86_64 aarch64 riscv64 amd64 arm64 x86 x32|The architecture [default: x86_64]' \
    'explain|--arch|x86_64 aarch64 riscv64 amd64 arm64 x86 x32|The architecture [default: x86_64]' \
    'explain|--oci||Read each text as a profile of a container runtime, whatever it contains' \
    'explain|--cap|<>|Capabilities of a profile\'s container, such as CAP_SYS_ADMIN,CAP_BPF; all; docker-default; podman-default' \
    'explain|--kernel|<>|The kernel version for a profile, such as 6.1; without it, newer than any' \
    'explain|--runtime|crun runc|The runtime of a profile\'s container [default: crun]' \
    'explain|-f|<filters>|The name of the filter; optional if the policy has only one' \
    'explain|--filter|<filters>|The name of the filter; optional if the policy has only one' \
    'explain|--json||Write the answer as one JSON object' \
    'explain|--after|<files> -|What holds too and was installed before SUBJECT, in this order; append :FILTER to name a filter' \
    'explain|--records|<files>|Without CALL, read call records from FILE instead of standard input' \
    'explain|--log|<files>|Explain the calls that lines of a log or of strace in FILE are about' \
    'explain|-h||Print help' \
    'explain|--help||Print help' \
    'explain|#1|<files> -|' \
    'explain|#2|<calls>|' \
    'explain|#+|<>|' \
    'diff|-a|x86_64 aarch64 riscv64 amd64 arm64|The architecture [default: x86_64]' \
    'diff|--arch|x86_64 aarch64 riscv64 amd64 arm64|The architecture [default: x86_64]' \
    'diff|--oci||Read each text as a profile of a container runtime, whatever it contains' \
    'diff|--cap|<>|Capabilities of a profile\'s container, such as CAP_SYS_ADMIN,CAP_BPF; all; docker-default; podman-default' \
    'diff|--kernel|<>|The kernel version for a profile, such as 6.1; without it, newer than any' \
    'diff|--runtime|crun runc|The runtime of a profile\'s container [default: crun]' \
    'diff|--only-more||Report only calls of which NEW permits more than OLD' \
    'diff|--all||Count other architectures for the exit status too, if a program is compared' \
    'diff|--each||Print a line for each call, even if many change in the same way' \
    'diff|--most|<>|The most sets of arguments to examine for each call [default: 10000000]' \
    'diff|--json||Write the answer as one JSON object' \
    'diff|-q||Don\'t print the number of warnings' \
    'diff|--quiet||Don\'t print the number of warnings' \
    'diff|-h||Print help' \
    'diff|--help||Print help' \
    'diff|#1|<files> -|' \
    'diff|#2|<files> -|' \
    'stack|-a|x86_64 aarch64 riscv64 amd64 arm64|The architecture [default: x86_64]' \
    'stack|--arch|x86_64 aarch64 riscv64 amd64 arm64|The architecture [default: x86_64]' \
    'stack|--oci||Read each text as a profile of a container runtime, whatever it contains' \
    'stack|--cap|<>|Capabilities of a profile\'s container, such as CAP_SYS_ADMIN,CAP_BPF; all; docker-default; podman-default' \
    'stack|--kernel|<>|The kernel version for a profile, such as 6.1; without it, newer than any' \
    'stack|--runtime|crun runc|The runtime of a profile\'s container [default: crun]' \
    'stack|--format|raw listing c|How the program is written: as bytes, as a listing, or as a C initializer [default: raw]' \
    'stack|--json||Write the answer as one JSON object' \
    'stack|-o|<files>|Write the program to FILE instead of standard output' \
    'stack|--output|<files>|Write the program to FILE instead of standard output' \
    'stack|-h||Print help' \
    'stack|--help||Print help' \
    'stack|#+|<files> -|' \
    'learn|-a|x86_64 aarch64 riscv64 amd64 arm64|The architecture [default: x86_64]' \
    'learn|--arch|x86_64 aarch64 riscv64 amd64 arm64|The architecture [default: x86_64]' \
    'learn|--name|<>|The name of the filter; `main`, or with --into the policy\'s only one' \
    'learn|--otherwise|<>|What other calls get: kill_process (the default), kill_thread, trap, log, errno:N or trace:N' \
    'learn|--into|<files>|Add to a filter of this policy; its other filters stay' \
    'learn|--profile||Write a profile of a container runtime instead of a policy' \
    'learn|--unit||Write a drop-in of a systemd unit, with SystemCallFilter=, instead of a policy' \
    'learn|--old-clone||Allow clone and clone3, and answer clone3 with ENOSYS in a second filter, NAME_clone3' \
    'learn|--args|<calls>|Keep the values of these arguments of a call, as in ioctl:1 or openat:2,3; all without INDEX' \
    'learn|--values|<>|The most different values to keep of a call; one with more is allowed with any arguments [default: 16]' \
    'learn|--runnable||Allow too what the C library calls by itself: to start, allocate, make threads, abort and end' \
    'learn|--strict||Reject a trace with lines that aren\'t understood' \
    'learn|--json||Write the answer as one JSON object' \
    'learn|-o|<files>|Write to FILE instead of standard output' \
    'learn|--output|<files>|Write to FILE instead of standard output' \
    'learn|-h||Print help' \
    'learn|--help||Print help' \
    'learn|#+|<files> -|' \
    'call|-a|x86_64 aarch64 riscv64 amd64 arm64|The architecture' \
    'call|--arch|x86_64 aarch64 riscv64 amd64 arm64|The architecture' \
    'call|--json||Write the answer as one JSON object' \
    'call|--record||Write the call\'s record, 64 bytes' \
    'call|-o|<files>|Write the record to FILE instead of standard output' \
    'call|--output|<files>|Write the record to FILE instead of standard output' \
    'call|-h||Print help' \
    'call|--help||Print help' \
    'call|#1|<calls>|' \
    'call|#+|<>|'

# Prints what is completed for a command's option or argument; fails if it has none of this name.
function __seccomptool_row
    for row in $__seccomptool_rows
        string split -m 3 '|' -- $row | read -L of name takes text
        test "x$of" = "x$argv[1]"; and test "x$name" = "x$argv[2]"; and echo -- $takes; and return
    end
    return 1
end

# Prints what is completed, by the words before it: first what the command has, then what stands at this place.
function __seccomptool_complete
    set -l current (commandline -ct)
    set -l words
    for word in (commandline -opc)[2..]
        string match -rq -- '^(?<front>--[^=]+)=(?<rest>.*)' $word; and set -a words $front = $rest; or set -a words $word
    end
    set -l front
    if string match -rq -- '^(?<front>--[^=]+=)(?<rest>.*)' $current
        set -a words (string trim -rc = -- $front)
        set current $rest
    end
    set -l count 0
    set -l place 1
    set -l command ''
    set -l argument
    set -l options yes
    set -l takes ''
    set -l offset 0
    set -l row
    for word in $words
        set count (math $count + 1)
        if test "x$word" = x=
            continue
        else if test -n "$takes"
            set takes ''
        else if test "x$word" = x--; and set row (__seccomptool_row $command --)
            test $place -eq 1; or set place (string sub -s 2 -- $row)
            set options
        else if test -n "$options"; and set row (__seccomptool_row $command $word)
            string match -q '=*' -- $row; and set command (string sub -s 2 -- $row); or set takes $row
        else if test -z "$options"; or not string match -q -- '-?*' $word
            test "$(__seccomptool_row $command "#$place")" = '<command>'; and set offset $count; and break
            set argument $word
            set place (math $place + 1)
            __seccomptool_row $command -- >/dev/null; and set options
        end
    end
    if test -n "$takes"
        set options
    else
        set takes (__seccomptool_row $command "#$place"; or __seccomptool_row $command '#+')
    end
    test "$takes" = '<command>' -a $offset -eq 0; and set offset (math $count + 1)
    for row in $__seccomptool_rows
        string split -m 3 '|' -- $row | read -L of name it text
        test -n "$options" -a "x$of" = "x$command"; and not string match -q '*#*' -- $name$it
        and begin
            string match -q -- '-*' $current; or not string match -q -- '-*' $name
        end
        and printf '%s\t%s\n' $name $text
    end
    for it in (string split -n ' ' -- $takes)
        switch $it
            case '<files>'
                __fish_complete_path $current | string replace -r -- '^' "$front"
            case '<command>'
                set -l all (commandline -opc)[(math $offset + 1)..]
                test (count $all) -eq 0; and __fish_complete_command
                or complete -C"$(string join ' ' -- (string escape -- $all) (commandline -ct))"
            case '<>'
                return
            case '<*>'
                __seccomptool_list $it $argument | string replace -r -- '^' "$front"
            case '*'
                echo -- "$front$it"
        end
    end
end

# Prints the program of a name, if it is no script. The script at the top of the repository would prove and build it first.
function __seccomptool_program
    set -l program (command -s -- $argv[1])
    set -l built (path dirname -- $program)/crates/seccomptool/out/seccomptool
    test -n "$program" -a -x "$built"; and set program $built
    test -n "$program"; and test (head -c 2 -- $program | string collect) != '#!'; and echo -- $program
end

# Prints the filters of the policies on the line, or the calls of the architecture on it: those that the program learns of a log of all
# their numbers. Names with a backslash stand for other bytes.
function __seccomptool_list
    set -l words (commandline -opc)
    set -l program (__seccomptool_program $words[1]); or return
    if test $argv[1] = '<filters>'
        for file in $words[3..]
            test -f "$file"; and $program show --stats -- $file 2>/dev/null | sed -n '/\\\\/d; s/^filter //p'
        end
        return
    end
    set -l arch x86_64
    string match -rq -- '.* (?:-a|--arch)[ =](?<given>\S+)' (string join -- ' ' $words); and set arch $given
    set -l value c000003e
    contains $arch aarch64 arm64; and set value c00000b7
    test $arch = riscv64; and set value c00000f3
    printf "type=1326 audit(0.0:0): arch=$value syscall=%d\n" (seq 0 1023) | $program learn -a $arch 2>/dev/null |
        sed -nE 's/.*"syscall": "([a-z0-9_]+)".*/\1/p'
end

complete -c seccomptool -f -a '(__seccomptool_complete)'
