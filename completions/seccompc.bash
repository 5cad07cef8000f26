# Completions of seccompc for bash: source this file, or install it as share/bash-completion/completions/seccompc.
# Made by tools/make-man. SPDX-License-Identifier: Apache-2.0 OR BSD-3-Clause

_seccompc_rows='|probe|=probe|
probe|#1|x86_64 aarch64 riscv64|
probe|#2|<>|
probe|#3|<>|
probe|#4|<>|
|list|=list|
list|#1|x86_64 aarch64 riscv64|
|run|=run|
run|#1|x86_64 aarch64 riscv64|
run|#2|<files>|
run|#3|<filters>|'

# Prints what is completed for a command's option or argument; fails if it has none of this name.
_seccompc_row() {
    local of name takes text
    while IFS='|' read -r of name takes text; do
        [[ $of != "$1" || $name != "$2" ]] || { printf '%s\n' "$takes" && return; }
    done <<< "$_seccompc_rows"
    return 1
}

# Goes over the words before the one that is completed. Finds their command, the last argument, whether options are completed, what is
# completed besides, and how many words stand in front of a command of somebody else's.
_seccompc_walk() {
    local word row count=0 place=1
    command= argument= options=yes takes= offset=
    for word; do
        ((count += 1))
        if [[ $word == '=' ]]; then
            continue
        elif [[ -n $takes ]]; then
            takes=
        elif [[ $word == -- ]] && row=$(_seccompc_row "$command" --); then
            ((place == 1)) || place=${row#?}
            options=
        elif [[ -n $options ]] && row=$(_seccompc_row "$command" "$word"); then
            [[ $row == '='* ]] && command=${row#=} || takes=$row
        elif [[ -z $options || $word != -?* ]]; then
            [[ $(_seccompc_row "$command" "#$place") != '<command>' ]] || { offset=$count && break; }
            argument=$word
            ((place += 1))
            ! _seccompc_row "$command" -- > /dev/null || options=
        fi
    done
    [[ -z $takes ]] || options=
    [[ -n $takes ]] || takes=$(_seccompc_row "$command" "#$place" || _seccompc_row "$command" '#+')
    [[ $takes != '<command>' || -n $offset ]] || ((offset = count + 1))
}

# Whether this row is an option or a command that is completed.
_seccompc_is_listed() {
    [[ -n $options && $1 == "$command" && $2$3 != *\#* && ($2 != -* || $current == -*) ]]
}

# Prints the program of this name, if it is no script. The script at the top of the repository would prove and build it first.
_seccompc_program() {
    local program built
    program=$(type -P -- "${1/#\~\//$HOME/}") || return
    built=${program%/*}/crates/seccompc/out/seccompc
    [[ ! -x $built ]] || program=$built
    [[ $(head -c 2 -- "$program") == '#!' ]] || printf '%s\n' "$program"
}

# Prints the filters of the policy on the line. Names with a backslash stand for other bytes.
_seccompc_list() {
    local program
    program=$(_seccompc_program "$2")
    [[ -z $program || ! -f $5 ]] || "$program" list "$4" < "$5" 2> /dev/null | sed -nE '/\\/d; s/^filter [0-9]+ //p'
}

# Adds the words that begin as the word that is completed. They may come from a policy, so nothing in them is expanded.
_seccompc_add() {
    local word
    for word; do
        [[ $word != "$current"* ]] || COMPREPLY+=("$(printf '%q' "$word")")
    done
}

_seccompc_add_files() {
    local file
    compopt -o filenames 2> /dev/null
    while IFS= read -r file; do
        COMPREPLY+=("$file")
    done < <(compgen -f -- "$current")
}

# Completes the command at a place; as bash-completion does if it is loaded, by the command's own completions.
_seccompc_add_command() {
    if declare -F _command_offset > /dev/null; then
        _command_offset "$1"
    elif ((COMP_CWORD == $1)); then
        mapfile -t COMPREPLY < <(compgen -c -- "$current")
    else
        _seccompc_add_files
    fi
}

_seccompc() {
    local current=${COMP_WORDS[COMP_CWORD]} command argument options takes offset of name it names
    COMPREPLY=()
    # In --option=value the mark is a word of its own.
    [[ $current != '=' ]] || current=
    _seccompc_walk "${COMP_WORDS[@]:1:COMP_CWORD-1}"
    while IFS='|' read -r of name it _; do
        ! _seccompc_is_listed "$of" "$name" "$it" || _seccompc_add "$name"
    done <<< "$_seccompc_rows"
    for it in $takes; do
        case $it in
        '<files>') _seccompc_add_files ;;
        '<command>') _seccompc_add_command "$offset" ;;
        '<>') ;;
        '<'*'>')
            mapfile -t names < <(_seccompc_list "$it" "${COMP_WORDS[@]}")
            _seccompc_add "${names[@]}"
            ;;
        *) _seccompc_add "$it" ;;
        esac
    done
}

complete -F _seccompc seccompc
