# Completion of iceberg for bash. Made by tools/make_help. Use: source docs/iceberg.bash
_iceberg() {
    local word="${COMP_WORDS[COMP_CWORD]}" before="${COMP_WORDS[COMP_CWORD - 1]}" options=""
    COMPREPLY=()
    if [ "$COMP_CWORD" -eq 1 ]; then
        COMPREPLY=($(compgen -W "cat-file seal-file create append scan rotate snapshots keys --help --version" -- "$word"))
        return
    fi
    case "${COMP_WORDS[1]}" in
        --*) return ;;
        cat-file) options="--key --length --skip --take --prefix" ;;
        seal-file) options="--key-bytes --block" ;;
        create) options="--keys --master --schema --location --key-bytes --block --avro-block --rows-per-file --retries" ;;
        append) options="--keys" ;;
        scan) options="--keys --metadata --snapshot --columns --range --low --high --skip --take" ;;
        rotate) options="--keys --master" ;;
    esac
    case "$before" in
        --keys | --metadata) COMPREPLY=($(compgen -f -- "$word")) ;;
        --key-bytes) COMPREPLY=($(compgen -W "16 24 32" -- "$word")) ;;
        --*) ;;
        *)
            if [ "$COMP_CWORD" -eq 2 ]; then
                COMPREPLY=($(compgen -d -- "$word"))
            else
                COMPREPLY=($(compgen -W "$options" -- "$word"))
            fi
            ;;
    esac
}
complete -o filenames -F _iceberg iceberg
