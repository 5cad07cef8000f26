# What tools/pages/completions_of_help.py makes the completions for bash and zsh of, part by part: NAME stands for the program, ROWS for what its help
# has, and WHICH for the shell's own way to find a program. A row has the command, the name of an option or of a command, or the place of an
# argument behind a #, what is completed for it, and what the help says of it. In front of the command that follows stands =. What is
# completed are words, and <files>, <filters>, <calls>, <command>, or <> for what nobody can know.
#[walk]
_NAME_rows='ROWS'

# Prints what is completed for a command's option or argument; fails if it has none of this name.
_NAME_row() {
    local of name takes text
    while IFS='|' read -r of name takes text; do
        [[ $of != "$1" || $name != "$2" ]] || { printf '%s\n' "$takes" && return; }
    done <<< "$_NAME_rows"
    return 1
}

# Goes over the words before the one that is completed. Finds their command, the last argument, whether options are completed, what is
# completed besides, and how many words stand in front of a command of somebody else's.
_NAME_walk() {
    local word row count=0 place=1
    command= argument= options=yes takes= offset=
    for word; do
        ((count += 1))
        if [[ $word == '=' ]]; then
            continue
        elif [[ -n $takes ]]; then
            takes=
        elif [[ $word == -- ]] && row=$(_NAME_row "$command" --); then
            ((place == 1)) || place=${row#?}
            options=
        elif [[ -n $options ]] && row=$(_NAME_row "$command" "$word"); then
            [[ $row == '='* ]] && command=${row#=} || takes=$row
        elif [[ -z $options || $word != -?* ]]; then
            [[ $(_NAME_row "$command" "#$place") != '<command>' ]] || { offset=$count && break; }
            argument=$word
            ((place += 1))
            ! _NAME_row "$command" -- > /dev/null || options=
        fi
    done
    [[ -z $takes ]] || options=
    [[ -n $takes ]] || takes=$(_NAME_row "$command" "#$place" || _NAME_row "$command" '#+')
    [[ $takes != '<command>' || -n $offset ]] || ((offset = count + 1))
}

# Whether this row is an option or a command that is completed.
_NAME_is_listed() {
    [[ -n $options && $1 == "$command" && $2$3 != *\#* && ($2 != -* || $current == -*) ]]
}

# Prints the program of this name, if it is no script. The script at the top of the repository would prove and build it first.
_NAME_program() {
    local program built
    program=$(WHICH -- "${1/#\~\//$HOME/}") || return
    built=${program%/*}/crates/NAME/out/NAME
    [[ ! -x $built ]] || program=$built
    [[ $(head -c 2 -- "$program") == '#!' ]] || printf '%s\n' "$program"
}

#[seccomptool]
# Prints the filters of the policies on the line, or the calls of the architecture on it: those that the program learns of a log of all
# their numbers. Names with a backslash stand for other bytes.
_seccomptool_list() {
    local kind=$1 program word before= arch=x86_64 value=c000003e
    program=$(_seccomptool_program "$2")
    [[ -n $program ]] || return 0
    shift 3
    for word; do
        [[ $kind != '<filters>' || ! -f $word ]] || "$program" show --stats -- "$word" 2> /dev/null | sed -n '/\\/d; s/^filter //p'
        [[ $before != -a && $before != --arch ]] || arch=$word
        [[ $word != --arch=* ]] || arch=${word#*=}
        [[ $word == '=' ]] || before=$word
    done
    case $arch in
    aarch64 | arm64) value=c00000b7 ;;
    riscv64) value=c00000f3 ;;
    esac
    [[ $kind != '<calls>' ]] || printf "type=1326 audit(0.0:0): arch=$value syscall=%d\n" {0..1023} |
        "$program" learn -a "$arch" 2> /dev/null | sed -nE 's/.*"syscall": "([a-z0-9_]+)".*/\1/p'
}

#[seccompc]
# Prints the filters of the policy on the line. Names with a backslash stand for other bytes.
_seccompc_list() {
    local program
    program=$(_seccompc_program "$2")
    [[ -z $program || ! -f $5 ]] || "$program" list "$4" < "$5" 2> /dev/null | sed -nE '/\\/d; s/^filter [0-9]+ //p'
}

#[jail]
# Prints the filters of the policy, after those that are named already. The seccomptool beside the program lists them, or that of PATH.
# Names with a comma can't be named, and those with a backslash stand for other bytes.
_jail_list() {
    local program tool front= name
    program=$(WHICH -- "${2/#\~\//$HOME/}")
    tool=${program%/*}/seccomptool
    [[ -n $program && -x $tool ]] || tool=$(WHICH seccomptool)
    [[ -f $argument && -n $tool && $(head -c 2 -- "$tool") != '#!' ]] || return 0
    [[ $current != *,* ]] || front=${current%,*},
    "$tool" show --stats -- "$argument" 2> /dev/null | sed -n '/[\\,]/d; s/^filter //p' | while IFS= read -r name; do
        printf '%s\n' "$front$name"
    done
}

#[bash]
# Adds the words that begin as the word that is completed. They may come from a policy, so nothing in them is expanded.
_NAME_add() {
    local word
    for word; do
        [[ $word != "$current"* ]] || COMPREPLY+=("$(printf '%q' "$word")")
    done
}

_NAME_add_files() {
    local file
    compopt -o filenames 2> /dev/null
    while IFS= read -r file; do
        COMPREPLY+=("$file")
    done < <(compgen -f -- "$current")
}

# Completes the command at a place; as bash-completion does if it is loaded, by the command's own completions.
_NAME_add_command() {
    if declare -F _command_offset > /dev/null; then
        _command_offset "$1"
    elif ((COMP_CWORD == $1)); then
        mapfile -t COMPREPLY < <(compgen -c -- "$current")
    else
        _NAME_add_files
    fi
}

_NAME() {
    local current=${COMP_WORDS[COMP_CWORD]} command argument options takes offset of name it names
    COMPREPLY=()
    # In --option=value the mark is a word of its own.
    [[ $current != '=' ]] || current=
    _NAME_walk "${COMP_WORDS[@]:1:COMP_CWORD-1}"
    while IFS='|' read -r of name it _; do
        ! _NAME_is_listed "$of" "$name" "$it" || _NAME_add "$name"
    done <<< "$_NAME_rows"
    for it in $takes; do
        case $it in
        '<files>') _NAME_add_files ;;
        '<command>') _NAME_add_command "$offset" ;;
        '<>') ;;
        '<'*'>')
            mapfile -t names < <(_NAME_list "$it" "${COMP_WORDS[@]}")
            _NAME_add "${names[@]}"
            ;;
        *) _NAME_add "$it" ;;
        esac
    done
}

complete -F _NAME NAME
#[zsh]
_NAME() {
    local current=${words[CURRENT]} command argument options takes offset of name it text word
    local -a before described
    for word in "${(@Q)words[2,CURRENT-1]}"; do
        [[ $word == --*=* ]] && before+=("${word%%=*}" = "${word#*=}") || before+=("$word")
    done
    if [[ $current == --*=* ]] && compset -P '*='; then
        before+=("${current%%=*}")
        current=${current#*=}
    fi
    _NAME_walk "${before[@]}"
    while IFS='|' read -r of name it text; do
        ! _NAME_is_listed "$of" "$name" "$it" || described+=("$name:$text")
    done <<< "$_NAME_rows"
    (( ! $#described )) || _describe word described
    for it in ${=takes}; do
        case $it in
        '<files>') _files ;;
        '<>') ;;
        '<command>') (( CURRENT -= offset )) && shift $offset words && _normal ;;
        '<'*'>') compadd -- ${(f)"$(_NAME_list "$it" "${(@Q)words}")"} ;;
        *) compadd -- "$it" ;;
        esac
    done
}

_NAME "$@"
