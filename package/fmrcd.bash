# The words of fmrcd for bash's completion.

_fmrcd() {
    local word=${COMP_WORDS[COMP_CWORD]} before=${COMP_WORDS[COMP_CWORD - 1]}
    local site="--name --proto --epoch --mark" help=
    local serve="--listen --workers --connections --keep --ticks --quiet"
    COMPREPLY=()
    if [ "$COMP_CWORD" = 1 ]; then
        mapfile -t COMPREPLY < <(compgen -W "serve many once twod extract pull check load --help --version" -- "$word")
        return
    fi
    case $before in
        # A colon parts words here, so this is what follows `put:`.
        --proto | :)
            compopt -o filenames
            mapfile -t COMPREPLY < <(compgen -f -- "${word#:}")
            return
            ;;
        --service)
            mapfile -t COMPREPLY < <(compgen -W "dds dods" -- "$word")
            return
            ;;
        --format)
            mapfile -t COMPREPLY < <(compgen -W "1 2" -- "$word")
            return
            ;;
        --ask | --view | --connect | --name | --epoch | --mark | --listen | --workers | --connections | --keep | --ticks) return ;;
    esac
    # Behind a command it stands alone.
    [ "$COMP_CWORD" = 2 ] && help=--help
    case ${COMP_WORDS[1]}$word in
        serve-*) mapfile -t COMPREPLY < <(compgen -W "$site $serve $help" -- "$word") ;;
        many-*) mapfile -t COMPREPLY < <(compgen -W "$serve $help" -- "$word") ;;
        once-*) mapfile -t COMPREPLY < <(compgen -W "$site $help" -- "$word") ;;
        twod-*) mapfile -t COMPREPLY < <(compgen -W "$site --service --ask $help" -- "$word") ;;
        extract-*) mapfile -t COMPREPLY < <(compgen -W "$site --view --ask --format $help" -- "$word") ;;
        pull-*) mapfile -t COMPREPLY < <(compgen -W "--connect $help" -- "$word") ;;
        check-* | load-*) mapfile -t COMPREPLY < <(compgen -W "$help" -- "$word") ;;
        once:* | twod:* | extract:*)
            compopt -o filenames
            mapfile -t COMPREPLY < <(compgen -f -- "${word#:}")
            ;;
        once*)
            compopt -o nospace
            mapfile -t COMPREPLY < <(compgen -W "put: expire: retract: ask:" -- "$word")
            ;;
        twod* | extract*)
            compopt -o nospace
            mapfile -t COMPREPLY < <(compgen -W "put: expire: retract:" -- "$word")
            ;;
        serve*)
            compopt -o filenames
            mapfile -t COMPREPLY < <(compgen -d -- "$word")
            ;;
        check*)
            compopt -o filenames
            mapfile -t COMPREPLY < <(compgen -f -- "$word")
            ;;
    esac
}

complete -F _fmrcd fmrcd
