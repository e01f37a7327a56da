# What LLVM's text of a module gets before it is compiled without vectors, for dist/c/vulfsjor.c:
# messages, and the leaves of BLAKE2bp and BLAKE2sp, are hashed one after another. Several in
# parallel, in the words of one processor, would take longer, and be two thirds of the code. If the
# two functions that say how many do not have their numbers exactly once, the text is refused.
/^define .*@"blake2_compress::many::blake2[bs]::best_lane_count"/,/^}/{
    /^define /H
    /^  store i64 [48], ptr/{
        s/i64 [48]/i64 1/
        H
    }
}
${
    x
    /^\(\n[^\n]*::best_lane_count"[^\n]*\n  store i64 1, [^\n]*\)\{2\}$/!q 1
    x
}
