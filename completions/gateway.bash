# Completion of gateway for bash: source this file, or lay it as `gateway` into
# ~/.local/share/bash-completion/completions/.

# The files of the current folder that end in $1, begin with $2 and have a name that gateway takes.
_gateway_files() {
    local file
    for file in "$2"*"$1"; do
        [[ -f $file && $file =~ ^[A-Za-z0-9_.-]{1,64}$ ]] && COMPREPLY+=("$file")
    done
}

_gateway() {
    local word=${COMP_WORDS[COMP_CWORD]}
    COMPREPLY=()
    case $COMP_CWORD,${COMP_WORDS[1]} in
    1,*) mapfile -t COMPREPLY < <(compgen -W "run check" -- "$word") ;;
    2,run | 2,check) _gateway_files .toml "$word" ;;
    3,run) _gateway_files .report "$word" ;;
    esac
}

complete -F _gateway gateway
