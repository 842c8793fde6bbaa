# Completions of wallcheck for bash: eval "$(wallcheck completions bash)"
_wallcheck() {
    local word=${COMP_WORDS[COMP_CWORD]} before=${COMP_WORDS[COMP_CWORD - 1]} command='' files=1 k
    local options='@ALONE@' words='@NAMES@'
    for ((k = 1; k < COMP_CWORD; k++)); do
        case ${COMP_WORDS[k]} in @EVERY@) command=${COMP_WORDS[k]} && break ;; esac
    done
    case $command in
        @COMMANDS@
    esac
    case $command:$before in
        @VALUES@
    esac
    [[ $word == -* ]] && words=$options
    COMPREPLY=($(compgen -W "$words" -- "$word"))
    if [[ $files == 1 && -n $command && $word != -* && ${#COMPREPLY[@]} == 0 ]]; then
        mapfile -t COMPREPLY < <(compgen -f -- "$word")
    fi
}
complete -o filenames -F _wallcheck wallcheck
