# Completes the words of vwires in bash: source tools/vwires.bash
# tools/manual made this from `vwires --help`.
_vwires() {
    local word=${COMP_WORDS[COMP_CWORD]} before=${COMP_WORDS[COMP_CWORD - 1]} setting= settings=
    # bash cuts a setting such as unknown=1 into three words
    if [ "$word" = "=" ]; then
        setting=$before word=
    elif [ "$before" = "=" ]; then
        setting=${COMP_WORDS[COMP_CWORD - 2]}
    fi
    case $setting in
        unknown) mapfile -t COMPREPLY < <(compgen -W '0 1' -- "$word"); return ;;
        plan) mapfile -t COMPREPLY < <(compgen -f -- "$word"); return ;;
        chips) mapfile -t COMPREPLY < <(compgen -f -- "$word"); return ;;
        replay) mapfile -t COMPREPLY < <(compgen -f -- "$word"); return ;;
        ?*) return ;;
    esac
    if [ "$COMP_CWORD" -eq 1 ]; then
        mapfile -t COMPREPLY < <(compgen -W 'sim wave grade nets check plan report run save resume emit demo --help --version' -- "$word")
        return
    fi
    case ${COMP_WORDS[1]} in
        sim) settings='unknown= replay= until= probe=' ;;
        wave) settings='unknown= replay= until= probe=' ;;
        grade) settings='workers= unknown= part=' ;;
        nets) settings='probe=' ;;
        check) settings='probe=' ;;
        plan) settings='chips= probe=' ;;
        report) settings='plan= probe=' ;;
        run) settings='plan= workers= unknown= until= probe=' ;;
        save) settings='plan= workers= unknown= every= until=' ;;
        resume) settings='plan= workers= unknown= until= probe=' ;;
        emit) settings='plan=' ;;
        demo) settings='workers=' ;;
    esac
    mapfile -t COMPREPLY < <(compgen -W "$settings" -- "$word"; compgen -f -- "$word")
    [[ ${COMPREPLY[0]} != *= ]] || compopt -o nospace 2> /dev/null
}
complete -o filenames -F _vwires vwires
