# Completions of bash for gorilla and the tools beside it. Read this file by: source tools/completions/gorilla.bash

_gorilla_files() {
    local IFS=$'\n'
    compopt -o filenames 2>/dev/null
    COMPREPLY=($(compgen -f -- "$1"))
}

_gorilla_words() {
    COMPREPLY=($(compgen -W "$2" -- "$1"))
}

_gorilla() {
    local now=${COMP_WORDS[COMP_CWORD]} before=${COMP_WORDS[COMP_CWORD-1]} said=" ${COMP_WORDS[*]:1:COMP_CWORD-1} "
    COMPREPLY=()
    case $COMP_CWORD,$before in
        1,*) _gorilla_words "$now" "run dump" ;;
        *,--shards) _gorilla_words "$now" "1" ;;
        *,--slots) _gorilla_words "$now" "1024 16384" ;;
        *)
            local left=
            [[ $said == *" --shards "* ]] || left="--shards"
            [[ $said == *" dump "* || $said == *" --slots "* ]] || left="$left --slots"
            _gorilla_words "$now" "$left"
            ;;
    esac
}

_gorilla_openmetrics() {
    local now=${COMP_WORDS[COMP_CWORD]} before=${COMP_WORDS[COMP_CWORD-1]}
    COMPREPLY=()
    case $COMP_CWORD,$before in
        1,*) _gorilla_words "$now" "to-workload from-dump --help" ;;
        *,--format) _gorilla_words "$now" "auto openmetrics prometheus" ;;
        *,--at | *,--lanes | *,--join) ;;
        *,--output | *,--workload) _gorilla_files "$now" ;;
        *)
            if [[ $now != -* ]]; then
                _gorilla_files "$now"
            elif [[ ${COMP_WORDS[1]} == to-workload ]]; then
                _gorilla_words "$now" "--format --at --lanes --join --split --output --help"
            else
                _gorilla_words "$now" "--workload --output --help"
            fi
            ;;
    esac
}

_gorilla_plot() {
    local now=${COMP_WORDS[COMP_CWORD]} before=${COMP_WORDS[COMP_CWORD-1]}
    COMPREPLY=()
    case $before in
        --series | --from | --to | --title | --width | --height) ;;
        *)
            if [[ $now == -* ]]; then
                _gorilla_words "$now" "--workload --series --from --to --text --title --width --height --output --help"
            else
                _gorilla_files "$now"
            fi
            ;;
    esac
}

_gorilla_crash() {
    local now=${COMP_WORDS[COMP_CWORD]} before=${COMP_WORDS[COMP_CWORD-1]}
    COMPREPLY=()
    case $before in
        --kills | --rounds | --seed) ;;
        --folder | --program) _gorilla_files "$now" ;;
        *) _gorilla_words "$now" "--kills --rounds --seed --folder --program --help" ;;
    esac
}

complete -F _gorilla gorilla ./gorilla
complete -F _gorilla_openmetrics openmetrics tools/openmetrics
complete -F _gorilla_plot plot tools/plot
complete -F _gorilla_crash crash tools/crash
