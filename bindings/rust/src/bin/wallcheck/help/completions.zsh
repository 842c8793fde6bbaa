#compdef wallcheck
# Completions of wallcheck for zsh: to be a file _wallcheck in a folder of fpath.
_wallcheck() {
    local state line
    local -a described
    described=(
        @DESCRIBED@
    )
    _arguments -C @ALONE@ '1: :->command' '*:: :->words'
    case $state in
        command) _describe command described ;;
        words) case $words[1] in
            @COMMANDS@
        esac ;;
    esac
}
_wallcheck "$@"
