# Completion of bpfs for bash.
#
# Source this file, or install it as bpfs in the folder that
# `pkg-config --variable=completionsdir bash-completion` prints.

# Completes file names, and keeps blanks in them.
_bpfs_files() {
    local file
    compopt -o filenames 2> /dev/null
    while IFS= read -r file; do
        COMPREPLY+=("$file")
    done < <(compgen -f -- "$1")
}

_bpfs() {
    local word=${COMP_WORDS[COMP_CWORD]} before=${COMP_WORDS[COMP_CWORD - 1]}
    local command=${COMP_WORDS[1]} options=--help offered
    COMPREPLY=()
    if [ "$COMP_CWORD" -eq 1 ]; then
        offered='format run check play export help --help --version'
    else
        # Bash splits `--version=1` at its equals sign.
        if [ "$before" = = ]; then
            before=${COMP_WORDS[COMP_CWORD - 2]}
        elif [ "$word" = = ]; then
            before=${COMP_WORDS[COMP_CWORD - 1]} word=
        fi
        case $command in
            format) options='--blocks --version --help' ;;
            play) options='--seed --count --help' ;;
            run | check | export) ;;
            help) options='format run check play export' ;;
            *) return ;;
        esac
        case $command/$before in
            format/--version) offered='1 2 3' ;;
            format/--blocks) offered='8 64 256 1024 4096 16384 65536' ;;
            play/--seed | play/--count) return ;;
            help/*) offered=$options ;;
            *)
                if [ "${word#-}" = "$word" ]; then
                    _bpfs_files "$word"
                    return
                fi
                offered=$options
                ;;
        esac
    fi
    while IFS= read -r word; do
        COMPREPLY+=("$word")
    done < <(compgen -W "$offered" -- "$word")
}

complete -F _bpfs bpfs
