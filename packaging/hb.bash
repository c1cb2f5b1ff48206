# Completes the words of hb in bash.

# The options of a command, one a word.
_hb_options() {
    local common="--partials --define --format --refuse-fractions --strict --escape --limit --recursive --prevent-indent --help"
    case $1 in
        render) echo "--output $common" ;;
        origins) echo "--marks --html $common" ;;
        build) echo "--output --to --each --dry-run --keep-going --shard --progress $common" ;;
        check) echo "--partials --markup --html --message-format --help" ;;
        *) echo "--help --version" ;;
    esac
}

# The short options of a command.
_hb_short_options() {
    case $1 in
        render | build) echo "-o -p -D -h" ;;
        check) echo "-p -h" ;;
        origins) echo "-p -D -h" ;;
        *) echo "-h -V" ;;
    esac
}

_hb_words() { mapfile -t COMPREPLY < <(compgen -W "$1" -- "$2"); }

_hb_files() {
    compopt -o filenames 2> /dev/null
    mapfile -t COMPREPLY < <(compgen "$1" -- "$2")
}

_hb() {
    local word=${COMP_WORDS[COMP_CWORD]} before=${COMP_WORDS[COMP_CWORD - 1]} command=${COMP_WORDS[1]}
    # bash splits `--format=csv` at the `=`.
    if [[ $word == "=" ]]; then
        word=""
    elif [[ $before == "=" ]]; then
        before=${COMP_WORDS[COMP_CWORD - 2]}
    fi
    COMPREPLY=()
    if ((COMP_CWORD == 1)); then
        case $word in
            -) _hb_words "$(_hb_short_options) $(_hb_options)" "$word" ;;
            -*) _hb_words "$(_hb_options)" "$word" ;;
            *) _hb_words "render build check origins help" "$word" ;;
        esac
        return
    fi
    case $before in
        --format) _hb_words "json jsonl toml csv tsv" "$word" ;;
        --escape) _hb_words "html none" "$word" ;;
        --message-format) _hb_words "human json" "$word" ;;
        -p | --partials) _hb_files -d "$word" ;;
        -o | --output) [[ $command == build ]] && _hb_files -d "$word" || _hb_files -f "$word" ;;
        -D | --define | --limit | --to | --each | --shard) ;;
        *)
            case $word in
                -) _hb_words "- $(_hb_short_options "$command") $(_hb_options "$command")" "$word" ;;
                -*) _hb_words "$(_hb_options "$command")" "$word" ;;
                *) _hb_files -f "$word" ;;
            esac
            ;;
    esac
}

complete -F _hb hb
