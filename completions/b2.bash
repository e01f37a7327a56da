# Completes the arguments of Vulfsjor's b2 in bash.
_b2() {
    local word=${COMP_WORDS[COMP_CWORD]} kinds="b128 b256 b512 s128 s256" words=
    case $COMP_CWORD,${COMP_WORDS[1]} in
        1,*) words="sum script steps witness tree leaves root xof derive --help --version" ;;
        2,sum | 2,script | 2,steps) words=$kinds ;;
        2,witness) words="$kinds b0 b8 s0 s8" ;;
        2,tree | 2,root) words="b128 b256 b512" ;;
        2,xof) words="xb xs" ;;
        2,leaves | 3,leaves | 3,tree | 3,root | 3,xof | *,witness) ;;
        4,leaves) words="more last" ;;
        4,derive) words=raw ;;
        *,tree | *,leaves | *,root) words="salt= persona= persona-text=" ;;
        4,xof) words="raw key= salt= persona= persona-text=" ;;
        *,sum | *,script | *,steps | *,xof) words="key= salt= persona= persona-text=" ;;
    esac
    mapfile -t COMPREPLY < <(compgen -W "$words" -- "$word")
    [[ ${COMPREPLY[0]-} != *= ]] || compopt -o nospace
}
complete -F _b2 b2
