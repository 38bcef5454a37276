# Completion of words for bash: the options of each command, and names of files.
_inglebreek() {
    local word=${COMP_WORDS[COMP_CWORD]} before=${COMP_WORDS[COMP_CWORD - 1]} options
    case ${COMP_WORDS[0]##*/} in
    inglebreek) options='--port --vlan --routes --alone --all --quiet --json --lines --messages --metrics --every --at-once --times --help --version' ;;
    inglebreek-capture) options='--from --to --format --table --no-table --write --records --left --network --mtu --quiet --help --version' ;;
    inglebreek-file) options='file-to-text text-to-file --help --version' ;;
    esac
    if [ "$before" = --format ]; then
        mapfile -t COMPREPLY < <(compgen -W 'text tsv json' -- "$word")
    elif [[ $word == -* || (${COMP_WORDS[0]} == *-file && $COMP_CWORD -eq 1) ]]; then
        mapfile -t COMPREPLY < <(compgen -W "$options" -- "$word")
    else
        mapfile -t COMPREPLY < <(compgen -f -- "$word")
    fi
}
complete -o filenames -F _inglebreek inglebreek inglebreek-capture inglebreek-file
