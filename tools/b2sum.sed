# What LLVM's text of b2sum gets before it is compiled: calls of absorb_tree, hide_memory and
# show_progress go to functions of C (c/b2sum.c), of which LLVM knows nothing. The proved functions
# have the same names with ::proved, by which C calls them. plain_names.py refuses a text that has
# not one of each.
/^define internal .*@"b2sum::\(hashes::absorb_tree\|disk::\(hide_memory\|show_progress\)\)\(::<[^"]*>\)\{0,1\}"(/{
    h
    s/^define internal \(.*\)@"\([^"]*\)"(/define \1@"\2::proved"(/
    x
    s/^define internal \(.*)\)[^)]*{$/declare \1/
    G
}
