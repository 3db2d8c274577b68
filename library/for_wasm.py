#!/usr/bin/env python3
"""Makes of a module of LLVM for x86-64 one for WebAssembly with a memory of 64 bits: for_wasm.py MODULE.ll > WASM.ll

Pointers, integers and their alignments are the same for both, so that the data layout, the target and the attributes of functions are replaced,
and x86's one instruction of its own.
"""
import re
import sys

LAYOUT = "e-m:e-p:64:64-p10:8:8-p20:8:8-i64:64-i128:128-n32:64-S128-ni:1:10:20"
# x86's shuffle of bytes by WebAssembly's: both give 0 where the index has its top bit, and else x86's takes its low four.
SHUFFLE = """declare <16 x i8> @llvm.wasm.swizzle(<16 x i8>, <16 x i8>)
define internal <16 x i8> @shuffled(<16 x i8> %a, <16 x i8> %i) alwaysinline nounwind {
  %m = and <16 x i8> %i, splat (i8 -113)
  %r = call <16 x i8> @llvm.wasm.swizzle(<16 x i8> %a, <16 x i8> %m)
  ret <16 x i8> %r
}
"""


def for_wasm(text):
    text = re.sub('(?m)^target datalayout = ".*"$', f'target datalayout = "{LAYOUT}"', text)
    text = re.sub('(?m)^target triple = ".*"$', 'target triple = "wasm64-unknown-unknown"', text)
    text = re.sub(r"(?m)^declare <16 x i8> @llvm\.x86\.ssse3\.pshuf\.b\.128\(.*\n", lambda _: SHUFFLE, text)
    text = text.replace("@llvm.x86.ssse3.pshuf.b.128", "@shuffled")
    text = re.sub('"probe-stack"="[^"]*" "stack-probe-size"="[^"]*" "target-cpu"="[^"]*"', '"target-cpu"="lime1" "target-features"="+simd128"', text)
    left = re.search(r"llvm\.x86\.[\w.]+|x86-64", text)
    if left:
        sys.exit(f"for_wasm.py: {left[0]} is of x86-64 alone, and nothing stands in its place yet")
    return text


with open(sys.argv[1], encoding="utf-8") as file:
    sys.stdout.write(for_wasm(file.read()))
