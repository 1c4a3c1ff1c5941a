# Completion of mesh's words for bash: source this file, or let tools/install.sh put it where bash-completion looks.
_mesh() {
    local word=${COMP_WORDS[COMP_CWORD]} before=${COMP_WORDS[COMP_CWORD - 1]} command=${COMP_WORDS[1]} words='' given
    COMPREPLY=()
    case $before in
    --make) words='grid ring random' ;;
    --routers) words=$(seq 2 64) ;;
    --seed | --turns | --send | --probe) return ;;
    *)
        [ "$COMP_CWORD" -gt 2 ] && [ "${COMP_WORDS[COMP_CWORD - 2]}" = --send ] && return
        case $COMP_CWORD:$command in
        1:*) words='dump emulate run replay' ;;
        *:dump) words=--recode ;;
        *:run) words=--turns ;;
        *:emulate)
            case " ${COMP_WORDS[*]:2:COMP_CWORD-2} " in
            *' --make '* | *' --routers '* | *' --seed '*) words='--make --routers --seed' ;;
            *' --trace '* | *' --send '* | *' --probe '*) words='--trace --send --probe' ;;
            *) words='--trace --send --probe --make --routers --seed' ;;
            esac ;;
        esac
        for given in "${COMP_WORDS[@]:2:COMP_CWORD-2}"; do words=" $words "; words=${words/" $given "/ }; done ;;
    esac
    mapfile -t COMPREPLY < <(compgen -W "$words" -- "$word")
}
complete -o default -F _mesh mesh ./mesh
