# Completes the words of yanglive in bash: source this file. tools/share writes it.
_yanglive_files() {
    mapfile -t COMPREPLY < <(compgen -A directory -- "$word"; compgen -A file -X "!*.$1" -- "$word")
}

# The names of modules that have files here, without their revisions.
_yanglive_names() {
    local file
    for file in *.yang; do
        file=${file%.yang}
        [ "$file" = "*" ] || printf '%s\n' "${file%@*}"
    done
}

_yanglive() {
    local word=${COMP_WORDS[COMP_CWORD]} before=${COMP_WORDS[COMP_CWORD - 1]} options="" kind="" place=0 k
    if [ "$COMP_CWORD" -eq 1 ]; then
        mapfile -t COMPREPLY < <(compgen -W "compile tree validate edit session explain --help --version" -- "$word")
        return
    fi
    for ((k = 2; k < COMP_CWORD; k++)); do
        case ${COMP_WORDS[k]} in
            --format | --output | --profile | --features | --unjudged | -p) ((k++)) ;;
            -?*) ;;
            *) ((place++)) ;;
        esac
    done
    case ${COMP_WORDS[1]} in
        compile)
            options="--explain --features --format --help --profile --unjudged -p"
            case $place in *) kind=yang ;; esac ;;
        tree)
            options="--all --explain --features --format --help --profile --unjudged -p"
            case $place in 0) kind=name ;; *) kind=yang ;; esac ;;
        validate)
            options="--config --explain --features --format --help --profile --strict --unjudged -p"
            case $place in 0) kind=json ;; *) kind=yang ;; esac ;;
        edit)
            options="--config --dump --explain --features --format --help --output --profile --strict --unjudged -p"
            case $place in 0) kind=json ;; 1) kind=any ;; *) kind=yang ;; esac ;;
        session)
            options="--changes --config --explain --features --help --profile --strict --undo --unjudged -p"
            case $place in 0) kind=json ;; *) kind=yang ;; esac ;;
        explain)
            options="--help"
            case $place in *) kind=code ;; esac ;;
    esac
    case $before in
        --format) kind=format ;;
        --output) kind=any ;;
        --profile) kind=profile ;;
        --features) kind=name ;;
        --unjudged) kind=conditions ;;
        -p) kind=folder ;;
    esac
    case $word in
        -*) kind=options ;;
    esac
    case $kind in
        options) mapfile -t COMPREPLY < <(compgen -W "$options" -- "$word") ;;
        format) mapfile -t COMPREPLY < <(compgen -W "text json" -- "$word") ;;
        profile) mapfile -t COMPREPLY < <(compgen -W "core rfc" -- "$word") ;;
        conditions) mapfile -t COMPREPLY < <(compgen -W "must when must,when" -- "$word") ;;
        code) mapfile -t COMPREPLY < <(compgen -W "L1 L2 L3 L4 L5 L6 L7 L8 C1 C2 C3 C4 C5 C6 C7 C8 C9 C10 C11 C12 C13 C14 C15 C16 C17 C18 C20 C22 C24 J1 J2 J3 J4 J5 J6 J7 J8 V1 V2 V3 V4 V5 V6 V7 V8 V9 V10 V11 V12 E1 E2 E3 E4 E5 E6 E7 E8 E9 E10 E11 E12 E13" -- "$word") ;;
        name) mapfile -t COMPREPLY < <(compgen -W "$(_yanglive_names)" -- "$word") ;;
        any) mapfile -t COMPREPLY < <(compgen -A file -- "$word") ;;
        folder) mapfile -t COMPREPLY < <(compgen -A directory -- "$word") ;;
        ?*) _yanglive_files "$kind" ;;
    esac
}
complete -o filenames -F _yanglive yanglive ./yanglive
