# Completion of goodlock's commands for bash. Tests compare it with the help texts.

_goodlock_files() {
    compopt -o filenames 2>/dev/null
    mapfile -t COMPREPLY < <(compgen "$@" -- "${COMP_WORDS[COMP_CWORD]}")
}

_goodlock_words() {
    mapfile -t COMPREPLY < <(compgen -W "$1" -- "${COMP_WORDS[COMP_CWORD]}")
}

_goodlock() {
    local query="--mode --len --max --help" last=${COMP_WORDS[COMP_CWORD - 1]}
    COMPREPLY=()
    case $last in
        --mode) _goodlock_words "basic guarded full" && return ;;
        --len | --max | --recorders | --shards | --ring | --threads | --jobs) return ;;
    esac
    if [ "$COMP_CWORD" -eq 1 ]; then
        _goodlock_words "predict live stats replay check --help --version"
        return
    fi
    case ${COMP_WORDS[1]} in
        predict) _goodlock_words "$query --json --findings --jobs" ;;
        live) _goodlock_words "$query --json --findings --recorders --shards --ring --stream --threads --jobs" ;;
        stats) _goodlock_words "$query --jobs" ;;
        replay) _goodlock_words "--jobs --help" ;;
        check) _goodlock_words "--jobs --help" ;;
    esac
}

# The options are given; then comes the program that is recorded, and then its own words.
_goodlock_recorder() {
    local at word
    COMPREPLY=()
    case ${COMP_WORDS[COMP_CWORD - 1]} in
        -o) _goodlock_files -f && return ;;
        --convert) _goodlock_files -d && return ;;
        --frames) _goodlock_words "1 2 4 8 16" && return ;;
        --python) _goodlock_files -c -A file && return ;;
        --mode) _goodlock_words "basic guarded full" && return ;;
        --every | --len | --max) return ;;
    esac
    for ((at = 1; at < COMP_CWORD; at++)); do
        word=${COMP_WORDS[at]}
        case $word in
            -o | --convert | --frames | --every | --mode | --len | --max | --python) at=$((at + 1)) ;;
            --) at=$((at + 1)) && break ;;
            -*) ;;
            *) break ;;
        esac
    done
    if [ "$at" -lt "$COMP_CWORD" ]; then
        _goodlock_files -f
    elif [[ ${COMP_WORDS[COMP_CWORD]} == -* ]]; then
        _goodlock_words "-o --frames --all $1 --convert --help --version"
    else
        _goodlock_files -c -A file
    fi
}

_goodlock_record() {
    _goodlock_recorder "--functions --live --every --mode --len --max --findings"
}

_goodlock_python() {
    _goodlock_recorder "--python"
}

# The report, and behind -- the program and its own words.
_goodlock_confirm() {
    local word
    COMPREPLY=()
    for word in "${COMP_WORDS[@]:1:COMP_CWORD-1}"; do
        [ "$word" = -- ] && _goodlock_files -c -A file && return
    done
    case ${COMP_WORDS[COMP_CWORD - 1]} in
        -o) _goodlock_files -f && return ;;
        --finding | --tries | --seconds) return ;;
    esac
    if [[ ${COMP_WORDS[COMP_CWORD]} == -* ]]; then
        _goodlock_words "-o --finding --tries --seconds --help --version"
    else
        _goodlock_files -f
    fi
}

_goodlock_predict_all() {
    COMPREPLY=()
    case ${COMP_WORDS[COMP_CWORD - 1]} in
        -o | --output) _goodlock_files -d && return ;;
        --program) _goodlock_files -f && return ;;
        -j | --jobs) return ;;
    esac
    if [[ ${COMP_WORDS[COMP_CWORD]} == -* ]]; then
        _goodlock_words "--output --jobs --null --program --help --version"
    else
        _goodlock_files -f
    fi
}

_goodlock_view() {
    COMPREPLY=()
    case ${COMP_WORDS[COMP_CWORD - 1]} in
        --source) _goodlock_files -d && return ;;
        -o | --html | --sarif | --dot | --known | --confirmed | --write-known) _goodlock_files -f && return ;;
        --category | --most) return ;;
    esac
    if [[ ${COMP_WORDS[COMP_CWORD]} == -* ]]; then
        _goodlock_words "--source --html --sarif --category --dot --text --known --confirmed --write-known --most --version --help"
    else
        _goodlock_files -f
    fi
}

complete -F _goodlock goodlock
complete -F _goodlock_record goodlock-record
complete -F _goodlock_python goodlock-python
complete -F _goodlock_confirm goodlock-confirm
complete -F _goodlock_predict_all goodlock-predict-all
complete -F _goodlock_view goodlock-view
