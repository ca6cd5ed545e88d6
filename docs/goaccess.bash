# Completion of goaccess's command line for bash. tools/check-completion compares it with --help.

_goaccess() {
    # the options with a value, and those without one
    local valued='--log-format --date-format --time-format --config-file --browsers-file --exclude-ip --ignore-status --static-file -o --output
        --date-spec --hour-spec --max-items --keep-last --ignore-panel --enable-panel --jobs --chunk-size --generate
        --db-path'
    local flags='--ignore-crawlers --no-ip-validation --no-strict-status --no-query-string --double-decode-url --all-static-files
        --4xx-to-unique-count --444-as-404 --persist --restore'
    local formats='COMMON COMBINED VCOMMON VCOMBINED'
    local panels='VISITORS REQUESTS REQUESTS_STATIC NOT_FOUND HOSTS OS BROWSERS VISIT_TIMES VIRTUAL_HOSTS REFERRERS REFERRING_SITES
        KEYPHRASES STATUS_CODES REMOTE_USER CACHE_STATUS MIME_TYPE TLS_TYPE'
    local word="${COMP_WORDS[COMP_CWORD]}" option='' only_logs='' before name

    # the option whose value the word is, if it is one: bash makes three words of --name=value
    for before in "${COMP_WORDS[@]:1:COMP_CWORD-1}"; do
        if [ -n "$option" ]; then
            [ "$before" = = ] || option=''
        elif [ "$before" = -- ]; then
            only_logs=1
        elif [ -z "$only_logs" ] && [[ " ${valued//$'\n'/ } " == *" $before "* ]]; then
            option="$before"
        fi
    done
    [ -n "$option" ] && [ "$word" = = ] && word=''

    COMPREPLY=()
    case "$option" in
        '')
            # a log, by complete -o default, or an option
            [ "$COMP_CWORD" = 1 ] && flags+=' --help --version'
            if [ -z "$only_logs" ] && [[ "$word" == -* ]]; then
                mapfile -t COMPREPLY < <(compgen -W "$valued $flags" -- "$word")
            fi
            return
            ;;
        --config-file | --browsers-file) return ;;
        --log-format) mapfile -t COMPREPLY < <(compgen -W "$formats" -- "$word") ;;
        --ignore-panel | --enable-panel) mapfile -t COMPREPLY < <(compgen -W "$panels" -- "$word") ;;
        --date-spec) mapfile -t COMPREPLY < <(compgen -W 'date hr min' -- "$word") ;;
        --hour-spec) mapfile -t COMPREPLY < <(compgen -W 'hr min' -- "$word") ;;
        --jobs) mapfile -t COMPREPLY < <(compgen -W '1 2 4 8 16' -- "$word") ;;
        --db-path)
            compopt -o filenames
            mapfile -t COMPREPLY < <(compgen -d -- "$word")
            ;;
        -o | --output)
            compopt -o filenames
            mapfile -t COMPREPLY < <(
                compgen -W 'csv json' -- "$word"
                compgen -f -- "$word" | while IFS= read -r name; do
                    case "$name" in *.csv | *.json) printf '%s\n' "$name" ;; *) [ -d "$name" ] && printf '%s\n' "$name" ;; esac
                done
            )
            ;;
    esac
    # no names of files for what is none
    compopt +o default
}

complete -o default -F _goaccess goaccess
