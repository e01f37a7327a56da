# What LLVM's text of a module gets before it is compiled for x86-64-v4.
#
# Only the compression of eight messages of BLAKE2b has vectors of more than 256 bits. No other
# function needs them, and so none has them: an instruction of 512 bits closes one of the two ports
# for vectors for a while, also to the others.
/^define /{
    s/ {$/ "min-legal-vector-width"="256" {/
    /@"blake2_compress::many::blake2b::eight::compress_blocks"/s/="256" {$/="512" {/
}
# Eight messages of BLAKE2b are hashed in parallel. If the function that says how many does not have
# the number exactly once, the text is refused.
/^define .*@"blake2_compress::many::blake2b::best_lane_count"/,/^}/{
    /^define /H
    /^  store i64 4, ptr/{
        s/i64 4/i64 8/
        H
    }
}
${
    x
    /^\(\n[^\n]*\n[^\n]*\)\{0,1\}$/!q 1
    x
}
