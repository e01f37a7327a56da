# Completes the arguments of Vulfsjor's b2 in fish.
function __b2_is --description 'whether these are the number of words before and the command'
    set -l words (commandline -opc)
    test (count $words) -ge $argv[1] -a (count $words) -le $argv[2]
    and contains -- "$words[2]" $argv[3..]
end
complete -c b2 -f
complete -c b2 -n 'test (count (commandline -opc)) -eq 1' -a 'sum script steps witness tree leaves root xof derive --help --version'
complete -c b2 -n '__b2_is 2 2 sum script steps witness' -a 'b128 b256 b512 s128 s256'
complete -c b2 -n '__b2_is 2 2 witness' -a 'b0 b8 s0 s8'
complete -c b2 -n '__b2_is 2 2 tree root' -a 'b128 b256 b512'
complete -c b2 -n '__b2_is 2 2 xof' -a 'xb xs'
complete -c b2 -n '__b2_is 3 9 sum script steps' -a 'key= salt= persona= persona-text='
complete -c b2 -n '__b2_is 4 9 xof' -a 'key= salt= persona= persona-text='
complete -c b2 -n '__b2_is 4 4 leaves' -a 'more last'
complete -c b2 -n '__b2_is 4 4 xof derive' -a 'raw'
complete -c b2 -n '__b2_is 4 9 tree root' -a 'salt= persona= persona-text='
complete -c b2 -n '__b2_is 5 9 leaves' -a 'salt= persona= persona-text='
