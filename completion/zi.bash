# Completion of zi's words for bash: source this file, or put it into the folder of bash-completion under the name zi.

# The digests in the stores that go on from what stands from the fourth word on, which the shell took apart at each `=`.
_zi_digests() {
    local typed
    typed=$(IFS='' && printf '%s' "${COMP_WORDS[*]:3:COMP_CWORD-2}")
    mapfile -t COMPREPLY < <(compgen -W "$("${COMP_WORDS[0]}" store list 2>/dev/null)" -- "$typed")
    case $typed in
        *=*) COMPREPLY=("${COMPREPLY[@]#*=}") ;;
    esac
}

_zi() {
    local word=${COMP_WORDS[COMP_CWORD]} before=${COMP_WORDS[COMP_CWORD-1]}
    local options="--command --no-command --version --version-for --os --cpu --lang --level --network --use --rate --search --"
    COMPREPLY=()
    if [ "$COMP_CWORD" -eq 1 ]; then
        mapfile -t COMPREPLY < <(compgen -W "select why conflict check refute download run launch script show manifest store demo --help --version" -- "$word")
        return
    fi
    case ${COMP_WORDS[1]} in
        select | why | conflict | check | refute | download | run | script)
            [ "${COMP_WORDS[1]}" = select ] && options="--proof $options"
            [ "${COMP_WORDS[1]}" = script ] && options="--launch $options"
            case $before in
                --os) mapfile -t COMPREPLY < <(compgen -W "Linux Darwin FreeBSD Cygwin Solaris Windows POSIX" -- "$word") ;;
                --cpu) mapfile -t COMPREPLY < <(compgen -W "x86_64 i686 i586 i486 i386 aarch64 ppc64" -- "$word") ;;
                --level) mapfile -t COMPREPLY < <(compgen -W "developer testing stable" -- "$word") ;;
                --network) mapfile -t COMPREPLY < <(compgen -W "full minimal off" -- "$word") ;;
                --command | --version | --version-for | --lang | --use | --rate | --search) ;;
                *)
                    case $word in
                        -*) mapfile -t COMPREPLY < <(compgen -W "$options" -- "$word") ;;
                        *) mapfile -t COMPREPLY < <(compgen -f -- "$word") ;;
                    esac
                    ;;
            esac
            ;;
        launch | show)
            mapfile -t COMPREPLY < <(compgen -f -- "$word")
            ;;
        manifest)
            if [ "$COMP_CWORD" -eq 2 ]; then
                mapfile -t COMPREPLY < <(compgen -W "sha1new sha256 sha256new" -- "$word")
            elif [ "$COMP_CWORD" -gt 2 ]; then
                _zi_digests
            fi
            ;;
        store)
            if [ "$COMP_CWORD" -eq 2 ]; then
                mapfile -t COMPREPLY < <(compgen -W "add verify list purge" -- "$word")
            elif [ "${COMP_WORDS[2]}" = purge ] || { [ "${COMP_WORDS[2]}" = add ] && [ "$COMP_CWORD" -gt 3 ]; }; then
                mapfile -t COMPREPLY < <(compgen -f -- "$word")
            elif [ "${COMP_WORDS[2]}" = verify ]; then
                _zi_digests
            fi
            ;;
    esac
}

complete -o filenames -F _zi zi
