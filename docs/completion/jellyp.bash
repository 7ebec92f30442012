# Completion of jellyp for bash. In a shell, or in ~/.bashrc:
#
#     source docs/completion/jellyp.bash
#
# The first word is completed to a command. What begins with -- is completed to an option of that command and its value,
# and after the options a word is completed to a file or a folder, as is what comes after --out=.
# shellcheck shell=bash

# The options of a command. After each stand its values, where there are few.
_jellyp_options() {
    case $1 in
        nquads) printf '%s\n' "--workers=" "--run=" "--strict= 0 1" "--out=" ;;
        validate) printf '%s\n' "--workers=" "--run=" "--strict= 0 1" ;;
    esac
}

# What a word that begins with -- may become, after these words before it.
_jellyp_option() {
    local word=$1 name values value
    shift
    while read -r name values; do
        [[ " $*" == *" $name"* ]] && continue
        if [[ $word != "$name"* ]]; then
            COMPREPLY+=("$name")
        else
            for value in $values; do
                COMPREPLY+=("$name$value")
            done
        fi
    done < <(_jellyp_options "$1")
    mapfile -t COMPREPLY < <(compgen -W "${COMPREPLY[*]}" -- "$word")
    # A value follows the sign at once.
    [[ ${COMPREPLY[*]} != *= ]] || compopt -o nospace 2>/dev/null
}

_jellyp_file() {
    local word=$1 found
    # `filenames` puts a slash after a folder and quotes what wants it.
    compopt -o filenames 2>/dev/null
    while IFS= read -r found; do
        COMPREPLY+=("$found")
    done < <(compgen -d -- "$word"; compgen -f -X '!*.jelly' -- "$word")
    # Where no file is named *.jelly, any file will do.
    if ((${#COMPREPLY[@]} == 0)); then
        mapfile -t COMPREPLY < <(compgen -f -- "$word")
    fi
}

_jellyp() {
    # Bash cuts words at =, so what stands round one is put together again.
    local words=() part glue=""
    for part in "${COMP_WORDS[@]:1:COMP_CWORD}"; do
        if [[ ${#words[@]} -gt 0 && ($glue == yes || $part == =) ]]; then
            words[-1]+=$part
        else
            words+=("$part")
        fi
        [[ $part == = ]] && glue=yes || glue=""
    done
    local word=${words[-1]} cut=""
    [[ $word == *=* && ${COMP_WORDS[COMP_CWORD]} != "$word" ]] && cut=${word%%=*}=
    unset 'words[-1]'
    COMPREPLY=()
    if ((${#words[@]} == 0)); then
        mapfile -t COMPREPLY < <(compgen -W 'nquads validate inspect' -- "$word")
        return
    fi
    local ended=""
    for part in "${words[@]:1}"; do
        # There is one file, after the options and perhaps a -- that ends them.
        [[ -z $ended && $part == --* ]] || return
        [[ $part != -- ]] || ended=yes
    done
    if [[ -z $ended && $word == --out=* ]]; then
        compopt -o filenames 2>/dev/null
        mapfile -t COMPREPLY < <(compgen -f -P --out= -- "${word#--out=}")
    elif [[ -z $ended && $word == --* ]]; then
        _jellyp_option "$word" "${words[@]}"
    else
        _jellyp_file "$word"
    fi
    # What stands before the sign is a word of its own to bash.
    COMPREPLY=("${COMPREPLY[@]#"$cut"}")
}

complete -F _jellyp jellyp
