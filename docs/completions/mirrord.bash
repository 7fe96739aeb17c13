# shellcheck shell=bash
# Made from crates/mirrord_commands by tools/make-completions. Do not edit it here.
_mirrord() {
    local word=${COMP_WORDS[COMP_CWORD]} before=${COMP_WORDS[COMP_CWORD - 1]} words
    # (of --attributes=host bash makes three words)
    if [[ $word == = ]]; then word=; elif [[ $before == = ]]; then before=${COMP_WORDS[COMP_CWORD - 2]}; fi
    COMPREPLY=()
    case $before in
        --root) compopt -o filenames; mapfile -t COMPREPLY < <(compgen -d -- "$word"); return ;;
        --socket) compopt -o filenames; mapfile -t COMPREPLY < <(compgen -f -- "$word"); return ;;
        --workers) mapfile -t COMPREPLY < <(compgen -W "1 2 3 4" -- "$word"); return ;;
        --kinds) mapfile -t COMPREPLY < <(compgen -W "files all" -- "$word"); return ;;
        --names) mapfile -t COMPREPLY < <(compgen -W "text bytes" -- "$word"); return ;;
        --attributes) mapfile -t COMPREPLY < <(compgen -W "fixed host" -- "$word"); return ;;
        --counts) mapfile -t COMPREPLY < <(compgen -W "bounded free" -- "$word"); return ;;
        --uid|--gid|--nodes|--files|--requests|--postings) return ;;
    esac
    case $COMP_CWORD,${COMP_WORDS[1]} in
        1,*) words="serve pipe device hex -h --help --version" ;;
        *,serve) words="--root --socket --workers -s --single --kinds --names --attributes --uid --gid --nodes --files --requests --counts --postings -h --help" ;;
        *,pipe) words="--root --kinds --names --attributes --uid --gid --nodes --files --requests --counts --postings -h --help" ;;
        *,device) words="--root --workers -s --single --kinds --names --attributes --uid --gid --nodes --files --requests --counts --postings -h --help" ;;
        *,hex) words="--sample --kinds --postings -h --help" ;;
        *) return ;;
    esac
    mapfile -t COMPREPLY < <(compgen -W "$words" -- "$word")
}
complete -F _mirrord mirrord
