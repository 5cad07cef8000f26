# Completions of jail for bash: source this file, or install it as share/bash-completion/completions/jail.
# Made by tools/make-man. SPDX-License-Identifier: Apache-2.0 OR BSD-3-Clause

_jail_rows='|--tree||compile the policy'\''s filters in the tree layout
|--log||log calls that aren'\''t allowed, including those with an errno
|--close-fds||close the descriptors above 2; else the command inherits them
|--help||print this
|--version||print the version
|--|#3|
|#1|<files>|
|#2|<filters>|
|#3|<command>|
|--program|=--program|
--program|--|#2|
--program|#1|<files>|
--program|#2|<command>|
|--oci|=--oci|
--oci|--|#2|
--oci|--cap|<>|
--oci|--kernel|<>|
--oci|--runtime|<>|
--oci|#1|<files>|
--oci|#2|<command>|'

# Prints what is completed for a command's option or argument; fails if it has none of this name.
_jail_row() {
    local of name takes text
    while IFS='|' read -r of name takes text; do
        [[ $of != "$1" || $name != "$2" ]] || { printf '%s\n' "$takes" && return; }
    done <<< "$_jail_rows"
    return 1
}

# Goes over the words before the one that is completed. Finds their command, the last argument, whether options are completed, what is
# completed besides, and how many words stand in front of a command of somebody else's.
_jail_walk() {
    local word row count=0 place=1
    command= argument= options=yes takes= offset=
    for word; do
        ((count += 1))
        if [[ $word == '=' ]]; then
            continue
        elif [[ -n $takes ]]; then
            takes=
        elif [[ $word == -- ]] && row=$(_jail_row "$command" --); then
            ((place == 1)) || place=${row#?}
            options=
        elif [[ -n $options ]] && row=$(_jail_row "$command" "$word"); then
            [[ $row == '='* ]] && command=${row#=} || takes=$row
        elif [[ -z $options || $word != -?* ]]; then
            [[ $(_jail_row "$command" "#$place") != '<command>' ]] || { offset=$count && break; }
            argument=$word
            ((place += 1))
            ! _jail_row "$command" -- > /dev/null || options=
        fi
    done
    [[ -z $takes ]] || options=
    [[ -n $takes ]] || takes=$(_jail_row "$command" "#$place" || _jail_row "$command" '#+')
    [[ $takes != '<command>' || -n $offset ]] || ((offset = count + 1))
}

# Whether this row is an option or a command that is completed.
_jail_is_listed() {
    [[ -n $options && $1 == "$command" && $2$3 != *\#* && ($2 != -* || $current == -*) ]]
}

# Prints the program of this name, if it is no script. The script at the top of the repository would prove and build it first.
_jail_program() {
    local program built
    program=$(type -P -- "${1/#\~\//$HOME/}") || return
    built=${program%/*}/crates/jail/out/jail
    [[ ! -x $built ]] || program=$built
    [[ $(head -c 2 -- "$program") == '#!' ]] || printf '%s\n' "$program"
}

# Prints the filters of the policy, after those that are named already. The seccomptool beside the program lists them, or that of PATH.
# Names with a comma can't be named, and those with a backslash stand for other bytes.
_jail_list() {
    local program tool front= name
    program=$(type -P -- "${2/#\~\//$HOME/}")
    tool=${program%/*}/seccomptool
    [[ -n $program && -x $tool ]] || tool=$(type -P seccomptool)
    [[ -f $argument && -n $tool && $(head -c 2 -- "$tool") != '#!' ]] || return 0
    [[ $current != *,* ]] || front=${current%,*},
    "$tool" show --stats -- "$argument" 2> /dev/null | sed -n '/[\\,]/d; s/^filter //p' | while IFS= read -r name; do
        printf '%s\n' "$front$name"
    done
}

# Adds the words that begin as the word that is completed. They may come from a policy, so nothing in them is expanded.
_jail_add() {
    local word
    for word; do
        [[ $word != "$current"* ]] || COMPREPLY+=("$(printf '%q' "$word")")
    done
}

_jail_add_files() {
    local file
    compopt -o filenames 2> /dev/null
    while IFS= read -r file; do
        COMPREPLY+=("$file")
    done < <(compgen -f -- "$current")
}

# Completes the command at a place; as bash-completion does if it is loaded, by the command's own completions.
_jail_add_command() {
    if declare -F _command_offset > /dev/null; then
        _command_offset "$1"
    elif ((COMP_CWORD == $1)); then
        mapfile -t COMPREPLY < <(compgen -c -- "$current")
    else
        _jail_add_files
    fi
}

_jail() {
    local current=${COMP_WORDS[COMP_CWORD]} command argument options takes offset of name it names
    COMPREPLY=()
    # In --option=value the mark is a word of its own.
    [[ $current != '=' ]] || current=
    _jail_walk "${COMP_WORDS[@]:1:COMP_CWORD-1}"
    while IFS='|' read -r of name it _; do
        ! _jail_is_listed "$of" "$name" "$it" || _jail_add "$name"
    done <<< "$_jail_rows"
    for it in $takes; do
        case $it in
        '<files>') _jail_add_files ;;
        '<command>') _jail_add_command "$offset" ;;
        '<>') ;;
        '<'*'>')
            mapfile -t names < <(_jail_list "$it" "${COMP_WORDS[@]}")
            _jail_add "${names[@]}"
            ;;
        *) _jail_add "$it" ;;
        esac
    done
}

complete -F _jail jail
