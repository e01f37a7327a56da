# What LLVM's text of a module gets before it is compiled for x86-64-v2: messages of BLAKE2b are
# hashed one after another, since four in parallel take longer there. If the function that says how
# many does not have the number exactly once, the text is refused.
/^define .*@"blake2_compress::many::blake2b::best_lane_count"/,/^}/{
    /^define /H
    /^  store i64 4, ptr/{
        s/i64 4/i64 1/
        H
    }
}
${
    x
    /^\(\n[^\n]*\n[^\n]*\)\{0,1\}$/!q 1
    x
}
