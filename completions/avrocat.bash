# Completion of avrocat's commands in bash.
_avrocat() {
    COMPREPLY=()
    if [ "$COMP_CWORD" -eq 1 ]; then
        local commands="fields schema count ndjson rewrite infer avro block block-large make help version --help -h --version"
        mapfile -t COMPREPLY < <(compgen -W "$commands" -- "${COMP_WORDS[1]}")
    fi
}
complete -o default -F _avrocat avrocat
