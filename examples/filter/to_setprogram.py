"""Turns a program of tcpdump -ddd into the arguments of setprogram (ng_bpf(4)).

    tcpdump -y EN10MB -ddd 'udp port 53' | python3 to_setprogram.py HOOK IFMATCH IFNOTMATCH

An empty third word sends nowhere what doesn't match.
"""
import sys

this, if_match, if_not_match = sys.argv[1:]
count, *lines = sys.stdin.read().splitlines()
steps = []
for line in lines:
    code, jt, jf, k = line.split()
    fields = [f"code={code}"] + [f"{name}={value}" for name, value in (("jt", jt), ("jf", jf), ("k", k)) if value != "0"]
    steps.append("{ " + " ".join(fields) + " }")
print(
    f'{{ thisHook="{this}" ifMatch="{if_match}" ifNotMatch="{if_not_match}" '
    f"bpf_prog_len={count} bpf_prog=[ {' '.join(steps)} ] }}"
)
