# Completions of nwq for bash: read this file in ~/.bashrc, or put it as `nwq` into
# ~/.local/share/bash-completion/completions.

# The folders, and the files with one of the endings (all files where none is given), that begin as
# the word does. They needn't be quoted here: `complete -o filenames` does that.
_nwq_files() {
    local word=$1 name ending taken
    shift
    while IFS= read -r name; do
        taken=no
        [[ $# -eq 0 || -d $name ]] && taken=yes
        for ending; do
            [[ $name == *".$ending" ]] && taken=yes
        done
        [[ $taken == yes ]] && COMPREPLY+=("$name")
    done < <(compgen -f -- "$word")
}

# The scripts of this folder, without their ending, whose names the program takes.
_nwq_scripts() {
    local name
    while IFS= read -r name; do
        name=${name%.nss}
        [[ ${#name} -le 16 && -n $name && $name != *[!abcdefghijklmnopqrstuvwxyz0123456789_]* ]] &&
            COMPREPLY+=("$name")
    done < <(compgen -f -X '!*.nss' -- "$1")
}

_nwq_header() {
    [[ -n $1 && $1 != - ]] || COMPREPLY+=(-)
    [[ $1 == - ]] || _nwq_files "$1" nss
}

_nwq() {
    local word=${COMP_WORDS[COMP_CWORD]}
    local commands='run compile play save resume check tree dis asm generate'
    COMPREPLY=()
    case $COMP_CWORD-${COMP_WORDS[1]} in
        1-*) mapfile -t COMPREPLY < <(compgen -W "$commands" -- "$word") ;;
        2-run | 2-compile | 2-play | 2-save | 2-check) _nwq_header "$word" ;;
        3-run | 3-compile) _nwq_scripts "$word" ;;
        3-check | 2-dis) _nwq_files "$word" ncs ;;
        3-play | 3-save) _nwq_files "$word" git gff ;;
        4-play | 4-save) _nwq_files "$word" plan ;;
        6-play | 7-save | 4-resume) _nwq_files "$word" txt ;;
        2-tree | 2-asm | 3-dis | 3-asm | 5-play | 6-save | 2-resume | 3-resume) _nwq_files "$word" ;;
    esac
}

complete -o filenames -F _nwq nwq
