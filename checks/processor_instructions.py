#!/usr/bin/env python3
"""Says which instructions of built files a processor of x86-64 may lack: checks/processor_instructions.py FILE.., by objdump.

Every processor of x86-64 has SSE2. What came later is known by its name. Left out is tzcnt: on an older processor its bytes are
bsf, and a compiler writes it where both return the same.
"""
import re
import subprocess
import sys

LATER = {
    "SSE3": r"addsubp[sd]|h(add|sub)p[sd]|lddqu|mov(d|sh|sl)dup|fisttp\w*|monitor|mwait",
    "CMPXCHG16B and LAHF": r"cmpxchg16b|[ls]ahf",
    "SSSE3": r"psign[bwd]|pabs[bwd]|palignr|pshufb|pmulhrsw|pmaddubsw|ph(add|sub)(d|s?w)",
    "SSE4.1": r"phminposuw|pmul(dq|ld)|dpp[sd]|p?blend\w+|p(min|max)(sb|sd|ud|uw)|round[ps][sd]|insertps|extractps|pinsr[bdq]|pextr[bdq]"
              r"|pmov[sz]x\w+|ptest|pcmpeqq|packusdw|mpsadbw|movntdqa",
    "SSE4.2 and POPCNT": r"crc32\w?|pcmp[ei]str[im]|pcmpgtq|popcnt\w?",
    "AVX and later": r"v(?!er[rw]$)\w+|k(mov|or|and|xor|not|shift|unpck|add|test)\w+",
    "BMI, LZCNT, MOVBE, ADX and later": r"andn\w?|bextr|bls(i|r|msk)\w?|bzhi|mulx|pdep|pext|[rs](or|ar|hl|hr)x|lzcnt\w?|movbe|ad[co]x|xsave\w*|rdrand|rdseed|sha(1|256)\w+|aes\w+|pclmul\w+",
}


def names_in(path):
    """The names of the instructions in a file."""
    words = ["objdump", "--disassemble", "--no-addresses", "--no-show-raw-insn", path]
    text = subprocess.run(words, capture_output=True, text=True, check=True).stdout
    prefixes = r"(?:(?:lock|repn?[ez]?|bnd|notrack|data16|addr32|cs|ds|es|fs|gs|ss|rex[.\w]*) )*"
    return set(re.findall(rf"(?m)^\s+{prefixes}([a-z]\w*)", text))


def main():
    paths = sys.argv[1:]
    if not paths:
        sys.exit("processor_instructions: name built files")
    for path in paths:
        names = names_in(path)
        for kind, pattern in LATER.items():
            later = sorted(it for it in names if re.fullmatch(pattern, it))
            if later:
                sys.exit(f"processor_instructions: {path} needs a processor with {kind}: {' '.join(later)}")
        print(f"processor_instructions: every processor of x86-64 has the {len(names)} of {path}")


main()
