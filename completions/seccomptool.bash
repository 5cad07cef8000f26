# Completions of seccomptool for bash: source this file, or install it as share/bash-completion/completions/seccomptool.
# Made by tools/make-man. SPDX-License-Identifier: Apache-2.0 OR BSD-3-Clause

_seccomptool_rows='|check|=check|Print what is wrong with a policy or a profile, and where, or else its warnings
|compile|=compile|Write the program of a filter or of a profile
|show|=show|Print programs, with notes on their instructions
|explain|=explain|Print what is decided for calls, and why
|diff|=diff|Print the calls that OLD and NEW decide differently
|stack|=stack|Write one program that answers as all SUBJECTs do if they hold together
|learn|=learn|Print a policy of the calls that a trace has
|call|=call|Print the name and the number of a call, or write its struct seccomp_data
|help|=help|Print this message or the help of the given subcommand(s)
help|#1|check compile show explain diff stack learn call help|
|-h||Print help
|--help||Print help
|-V||Print version
|--version||Print version
check|-a|x86_64 aarch64 riscv64 amd64 arm64|The architecture [default: x86_64]
check|--arch|x86_64 aarch64 riscv64 amd64 arm64|The architecture [default: x86_64]
check|--oci||Read each text as a profile of a container runtime, whatever it contains
check|--cap|<>|Capabilities of a profile'\''s container, such as CAP_SYS_ADMIN,CAP_BPF; all; docker-default; podman-default
check|--kernel|<>|The kernel version for a profile, such as 6.1; without it, newer than any
check|--runtime|crun runc|The runtime of a profile'\''s container [default: crun]
check|--deny-warnings||End with exit status 1 if there is a warning
check|--allow|fake-success errno-too-large endless-retry trace-without-tracer allows-by-default denies-everything high-half-ignored value-outside-mask always-holds never-holds high-half-evades flag-evades condition-evaded pointer-compared signed-compared kills-exit clone-by-clone3 no-execve no-restart sibling-allowed crate-differs unreachable-entry redundant-entry undecided-entry abi-evades no-effect open-order refused-by-libseccomp libseccomp-miscompiles runtimes-differ unknown-key|Don'\''t print the warnings of this code
check|--format|text gcc json|How errors and warnings are written: for people, in lines as gcc'\''s, or as JSON
check|--json||Write the answer as one JSON object
check|--list||Print what each warning code means, and check nothing
check|-v||List the names of a profile that are left out
check|--verbose||List the names of a profile that are left out
check|-h||Print help
check|--help||Print help
check|#+|<files> -|
compile|-a|x86_64 aarch64 riscv64 amd64 arm64|The architecture [default: x86_64]
compile|--arch|x86_64 aarch64 riscv64 amd64 arm64|The architecture [default: x86_64]
compile|--oci||Read each text as a profile of a container runtime, whatever it contains
compile|--cap|<>|Capabilities of a profile'\''s container, such as CAP_SYS_ADMIN,CAP_BPF; all; docker-default; podman-default
compile|--kernel|<>|The kernel version for a profile, such as 6.1; without it, newer than any
compile|--runtime|crun runc|The runtime of a profile'\''s container [default: crun]
compile|-f|<filters>|The name of the filter; optional if the policy has only one
compile|--filter|<filters>|The name of the filter; optional if the policy has only one
compile|--layout|linear tree|How a program finds a call'\''s rules: one call after the other, or by a tree of tests [default: tree]
compile|--format|raw listing c|How the program is written: as bytes, as a listing, or as a C initializer [default: raw]
compile|--json||Write the answer as one JSON object
compile|-o|<files>|Write the program to FILE instead of standard output
compile|--output|<files>|Write the program to FILE instead of standard output
compile|-q||Don'\''t print the number of warnings
compile|--quiet||Don'\''t print the number of warnings
compile|-v||List the names of a profile that are left out
compile|--verbose||List the names of a profile that are left out
compile|--strict||Reject a profile that names calls which the architecture doesn'\''t have
compile|-h||Print help
compile|--help||Print help
compile|#1|<files> -|
show|-a|x86_64 aarch64 riscv64 amd64 arm64|The architecture [default: x86_64]
show|--arch|x86_64 aarch64 riscv64 amd64 arm64|The architecture [default: x86_64]
show|--oci||Read each text as a profile of a container runtime, whatever it contains
show|--cap|<>|Capabilities of a profile'\''s container, such as CAP_SYS_ADMIN,CAP_BPF; all; docker-default; podman-default
show|--kernel|<>|The kernel version for a profile, such as 6.1; without it, newer than any
show|--runtime|crun runc|The runtime of a profile'\''s container [default: crun]
show|-f|<filters>|The name of the filter to show; without it all filters are shown
show|--filter|<filters>|The name of the filter to show; without it all filters are shown
show|--layout|linear tree|How a program finds a call'\''s rules: one call after the other, or by a tree of tests [default: tree]
show|--stats||Print how long the programs are, and how many steps they take
show|--json||Write the answer as one JSON object
show|-h||Print help
show|--help||Print help
show|#1|<files> -|
explain|-a|x86_64 aarch64 riscv64 amd64 arm64 x86 x32|The architecture [default: x86_64]
explain|--arch|x86_64 aarch64 riscv64 amd64 arm64 x86 x32|The architecture [default: x86_64]
explain|--oci||Read each text as a profile of a container runtime, whatever it contains
explain|--cap|<>|Capabilities of a profile'\''s container, such as CAP_SYS_ADMIN,CAP_BPF; all; docker-default; podman-default
explain|--kernel|<>|The kernel version for a profile, such as 6.1; without it, newer than any
explain|--runtime|crun runc|The runtime of a profile'\''s container [default: crun]
explain|-f|<filters>|The name of the filter; optional if the policy has only one
explain|--filter|<filters>|The name of the filter; optional if the policy has only one
explain|--json||Write the answer as one JSON object
explain|--after|<files> -|What holds too and was installed before SUBJECT, in this order; append :FILTER to name a filter
explain|--records|<files>|Without CALL, read call records from FILE instead of standard input
explain|--log|<files>|Explain the calls that lines of a log or of strace in FILE are about
explain|-h||Print help
explain|--help||Print help
explain|#1|<files> -|
explain|#2|<calls>|
explain|#+|<>|
diff|-a|x86_64 aarch64 riscv64 amd64 arm64|The architecture [default: x86_64]
diff|--arch|x86_64 aarch64 riscv64 amd64 arm64|The architecture [default: x86_64]
diff|--oci||Read each text as a profile of a container runtime, whatever it contains
diff|--cap|<>|Capabilities of a profile'\''s container, such as CAP_SYS_ADMIN,CAP_BPF; all; docker-default; podman-default
diff|--kernel|<>|The kernel version for a profile, such as 6.1; without it, newer than any
diff|--runtime|crun runc|The runtime of a profile'\''s container [default: crun]
diff|--only-more||Report only calls of which NEW permits more than OLD
diff|--all||Count other architectures for the exit status too, if a program is compared
diff|--each||Print a line for each call, even if many change in the same way
diff|--most|<>|The most sets of arguments to examine for each call [default: 10000000]
diff|--json||Write the answer as one JSON object
diff|-q||Don'\''t print the number of warnings
diff|--quiet||Don'\''t print the number of warnings
diff|-h||Print help
diff|--help||Print help
diff|#1|<files> -|
diff|#2|<files> -|
stack|-a|x86_64 aarch64 riscv64 amd64 arm64|The architecture [default: x86_64]
stack|--arch|x86_64 aarch64 riscv64 amd64 arm64|The architecture [default: x86_64]
stack|--oci||Read each text as a profile of a container runtime, whatever it contains
stack|--cap|<>|Capabilities of a profile'\''s container, such as CAP_SYS_ADMIN,CAP_BPF; all; docker-default; podman-default
stack|--kernel|<>|The kernel version for a profile, such as 6.1; without it, newer than any
stack|--runtime|crun runc|The runtime of a profile'\''s container [default: crun]
stack|--format|raw listing c|How the program is written: as bytes, as a listing, or as a C initializer [default: raw]
stack|--json||Write the answer as one JSON object
stack|-o|<files>|Write the program to FILE instead of standard output
stack|--output|<files>|Write the program to FILE instead of standard output
stack|-h||Print help
stack|--help||Print help
stack|#+|<files> -|
learn|-a|x86_64 aarch64 riscv64 amd64 arm64|The architecture [default: x86_64]
learn|--arch|x86_64 aarch64 riscv64 amd64 arm64|The architecture [default: x86_64]
learn|--name|<>|The name of the filter; `main`, or with --into the policy'\''s only one
learn|--otherwise|<>|What other calls get: kill_process (the default), kill_thread, trap, log, errno:N or trace:N
learn|--into|<files>|Add to a filter of this policy; its other filters stay
learn|--profile||Write a profile of a container runtime instead of a policy
learn|--unit||Write a drop-in of a systemd unit, with SystemCallFilter=, instead of a policy
learn|--old-clone||Allow clone and clone3, and answer clone3 with ENOSYS in a second filter, NAME_clone3
learn|--args|<calls>|Keep the values of these arguments of a call, as in ioctl:1 or openat:2,3; all without INDEX
learn|--values|<>|The most different values to keep of a call; one with more is allowed with any arguments [default: 16]
learn|--runnable||Allow too what the C library calls by itself: to start, allocate, make threads, abort and end
learn|--strict||Reject a trace with lines that aren'\''t understood
learn|--json||Write the answer as one JSON object
learn|-o|<files>|Write to FILE instead of standard output
learn|--output|<files>|Write to FILE instead of standard output
learn|-h||Print help
learn|--help||Print help
learn|#+|<files> -|
call|-a|x86_64 aarch64 riscv64 amd64 arm64|The architecture
call|--arch|x86_64 aarch64 riscv64 amd64 arm64|The architecture
call|--json||Write the answer as one JSON object
call|--record||Write the call'\''s record, 64 bytes
call|-o|<files>|Write the record to FILE instead of standard output
call|--output|<files>|Write the record to FILE instead of standard output
call|-h||Print help
call|--help||Print help
call|#1|<calls>|
call|#+|<>|'

# Prints what is completed for a command's option or argument; fails if it has none of this name.
_seccomptool_row() {
    local of name takes text
    while IFS='|' read -r of name takes text; do
        [[ $of != "$1" || $name != "$2" ]] || { printf '%s\n' "$takes" && return; }
    done <<< "$_seccomptool_rows"
    return 1
}

# Goes over the words before the one that is completed. Finds their command, the last argument, whether options are completed, what is
# completed besides, and how many words stand in front of a command of somebody else's.
_seccomptool_walk() {
    local word row count=0 place=1
    command= argument= options=yes takes= offset=
    for word; do
        ((count += 1))
        if [[ $word == '=' ]]; then
            continue
        elif [[ -n $takes ]]; then
            takes=
        elif [[ $word == -- ]] && row=$(_seccomptool_row "$command" --); then
            ((place == 1)) || place=${row#?}
            options=
        elif [[ -n $options ]] && row=$(_seccomptool_row "$command" "$word"); then
            [[ $row == '='* ]] && command=${row#=} || takes=$row
        elif [[ -z $options || $word != -?* ]]; then
            [[ $(_seccomptool_row "$command" "#$place") != '<command>' ]] || { offset=$count && break; }
            argument=$word
            ((place += 1))
            ! _seccomptool_row "$command" -- > /dev/null || options=
        fi
    done
    [[ -z $takes ]] || options=
    [[ -n $takes ]] || takes=$(_seccomptool_row "$command" "#$place" || _seccomptool_row "$command" '#+')
    [[ $takes != '<command>' || -n $offset ]] || ((offset = count + 1))
}

# Whether this row is an option or a command that is completed.
_seccomptool_is_listed() {
    [[ -n $options && $1 == "$command" && $2$3 != *\#* && ($2 != -* || $current == -*) ]]
}

# Prints the program of this name, if it is no script. The script at the top of the repository would prove and build it first.
_seccomptool_program() {
    local program built
    program=$(type -P -- "${1/#\~\//$HOME/}") || return
    built=${program%/*}/crates/seccomptool/out/seccomptool
    [[ ! -x $built ]] || program=$built
    [[ $(head -c 2 -- "$program") == '#!' ]] || printf '%s\n' "$program"
}

# Prints the filters of the policies on the line, or the calls of the architecture on it: those that the program learns of a log of all
# their numbers. Names with a backslash stand for other bytes.
_seccomptool_list() {
    local kind=$1 program word before= arch=x86_64 value=c000003e
    program=$(_seccomptool_program "$2")
    [[ -n $program ]] || return 0
    shift 3
    for word; do
        [[ $kind != '<filters>' || ! -f $word ]] || "$program" show --stats -- "$word" 2> /dev/null | sed -n '/\\/d; s/^filter //p'
        [[ $before != -a && $before != --arch ]] || arch=$word
        [[ $word != --arch=* ]] || arch=${word#*=}
        [[ $word == '=' ]] || before=$word
    done
    case $arch in
    aarch64 | arm64) value=c00000b7 ;;
    riscv64) value=c00000f3 ;;
    esac
    [[ $kind != '<calls>' ]] || printf "type=1326 audit(0.0:0): arch=$value syscall=%d\n" {0..1023} |
        "$program" learn -a "$arch" 2> /dev/null | sed -nE 's/.*"syscall": "([a-z0-9_]+)".*/\1/p'
}

# Adds the words that begin as the word that is completed. They may come from a policy, so nothing in them is expanded.
_seccomptool_add() {
    local word
    for word; do
        [[ $word != "$current"* ]] || COMPREPLY+=("$(printf '%q' "$word")")
    done
}

_seccomptool_add_files() {
    local file
    compopt -o filenames 2> /dev/null
    while IFS= read -r file; do
        COMPREPLY+=("$file")
    done < <(compgen -f -- "$current")
}

# Completes the command at a place; as bash-completion does if it is loaded, by the command's own completions.
_seccomptool_add_command() {
    if declare -F _command_offset > /dev/null; then
        _command_offset "$1"
    elif ((COMP_CWORD == $1)); then
        mapfile -t COMPREPLY < <(compgen -c -- "$current")
    else
        _seccomptool_add_files
    fi
}

_seccomptool() {
    local current=${COMP_WORDS[COMP_CWORD]} command argument options takes offset of name it names
    COMPREPLY=()
    # In --option=value the mark is a word of its own.
    [[ $current != '=' ]] || current=
    _seccomptool_walk "${COMP_WORDS[@]:1:COMP_CWORD-1}"
    while IFS='|' read -r of name it _; do
        ! _seccomptool_is_listed "$of" "$name" "$it" || _seccomptool_add "$name"
    done <<< "$_seccomptool_rows"
    for it in $takes; do
        case $it in
        '<files>') _seccomptool_add_files ;;
        '<command>') _seccomptool_add_command "$offset" ;;
        '<>') ;;
        '<'*'>')
            mapfile -t names < <(_seccomptool_list "$it" "${COMP_WORDS[@]}")
            _seccomptool_add "${names[@]}"
            ;;
        *) _seccomptool_add "$it" ;;
        esac
    done
}

complete -F _seccomptool seccomptool
