# What LLVM's text of a module gets before it is compiled for x86-64-v2 and x86-64-v3, which have no
# rotations of vectors.
#
# Two of the four rotations in G are by whole bytes, which are shuffles there, each of an exclusive
# or with a word that is a shuffle itself. LLVM's code generator moves a shuffle before such an
# exclusive or, to join it with the other shuffle. But it cannot take the other one away, since its
# result is also added to a word, and so a shuffle more is left in each G. `llvm.arithmetic.fence`
# returns what it is given, and nothing is moved across it. It is no instruction. If a rotation is
# not there exactly once, the text is refused.
/^define .*@"blake2_simd::rows::u64_lanes::u64x4::mix_lanes"(/,/^}/{
    /^  call void @"[^"]*::\(rotate_bytes"([^%]*%[^ ,]*, ptr [^,]*)\|rotate_right_const"(.*, i32 [a-z ]*32)\)/{
        s/^\(  call void @"[^"]*::\(rotate_[a-z_]*\)"([^,]*, ptr [^%]*\(%[^ ,)]*\)[,)].*\)$/  %\2.words = load <4 x i64>, ptr \3, align 8\n  %\2.numbers = bitcast <4 x i64> %\2.words to <4 x double>\n  %\2.fenced = call <4 x double> @llvm.arithmetic.fence.v4f64(<4 x double> %\2.numbers)\n  %\2.kept = bitcast <4 x double> %\2.fenced to <4 x i64>\n  store <4 x i64> %\2.kept, ptr \3, align 8\n\1/
        H
    }
}
/^define .*@"blake2_simd::rows::u32_wide::u32x8::mix"(/,/^}/{
    /^  call void @"[^"]*::\(rotate_bytes"([^%]*%[^ ,]*, ptr [^,]*)\|rotate_right_const"(.*, i32 [a-z ]*16)\)/{
        s/^\(  call void @"[^"]*::\(rotate_[a-z_]*\)"([^,]*, ptr [^%]*\(%[^ ,)]*\)[,)].*\)$/  %\2.words = load <8 x i32>, ptr \3, align 4\n  %\2.numbers = bitcast <8 x i32> %\2.words to <8 x float>\n  %\2.fenced = call <8 x float> @llvm.arithmetic.fence.v8f32(<8 x float> %\2.numbers)\n  %\2.kept = bitcast <8 x float> %\2.fenced to <8 x i32>\n  store <8 x i32> %\2.kept, ptr \3, align 4\n\1/
        H
    }
}
${
    a\
declare <4 x double> @llvm.arithmetic.fence.v4f64(<4 x double>)\
declare <8 x float> @llvm.arithmetic.fence.v8f32(<8 x float>)
    x
    /^\(\(\n  %[^\n]*\)\{4\}\n  store [^\n]*\n  call [^\n]*\)\{4\}$/!q 1
    x
}
