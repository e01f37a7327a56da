# Completes the arguments of Vulfsjor's b2sum in bash.
_b2sum() {
    local word=${COMP_WORDS[COMP_CWORD]} before=${COMP_WORDS[COMP_CWORD - 1]} words
    COMPREPLY=()
    [ "$before" != = ] || before=${COMP_WORDS[COMP_CWORD - 2]}
    [ "$word" != = ] || word=
    case $before in
        -a | --algorithm) words="blake2b blake2s blake2bp blake2sp" ;;
        -l | --length)
            words="128 160 224 256"
            [[ ${COMP_WORDS[*]} == *blake2s* ]] || words+=" 384 512"
            ;;
        --tree) words="65536" ;;
        --derive-key | --expect | --personal | --personal-text | --salt | --threads) return ;;
        --recursive)
            compopt -o filenames
            mapfile -t COMPREPLY < <(compgen -d -- "$word")
            return
            ;;
        *)
            if [[ $word != -* ]]; then
                compopt -o filenames
                mapfile -t COMPREPLY < <(compgen -f -- "$word")
                return
            fi
            words="--algorithm --binary --check --derive-key --expect --help --ignore-missing --key-file --key-hex-file
                --length --no-names --personal --personal-text --progress --quiet --raw --recursive --salt --seal
                --sealed --show-digests --status --strict --tag --text --threads --tree --version --warn --zero"
            ;;
    esac
    mapfile -t COMPREPLY < <(compgen -W "$words" -- "$word")
}
complete -F _b2sum b2sum
