"""Prints, from disassemblies of the three archives, the stack that each function for C needs: what a function pushes, what it takes off %rsp and
the 8 bytes of its return address, and the calls below it. A function that calls itself is counted once: it does so where its list is too
long, which a build has refused before. Fails above the limits."""
import re
import sys

LIMITS = {  # of a whole call, as include/igu.h says them
    "igu_build": 80 * 1024,
    "igu_build_given": 20 * 1024,
    "igu_write": 3 * 1024,
    "igu_read": 2 * 1024,
    "igu_recover": 2 * 1024,
    "igu_lookup": 2 * 1024,
    "igu_lookup_many": 18 * 1024,
}
ADDING_LIMITS = {  # the same, of the second archive
    "igu_add": 16 * 1024,
}
ENGINE_LIMITS = {  # and of the third
    "igu_profiles_build": 90 * 1024,
    "igu_profile": 2 * 1024,
}
BUILDS = ["igu_build", "igu_build_given"]
PLACING = "build::finish::complete"  # all that comes after the checks and the choice
PLACING_LIMIT = 4096  # from the entry of a build down
PAGE = 0x1000


def stop(why):
    sys.exit("frames: " + why)


def number(text):
    return int(text, 16)


def read(path):
    """The bytes of each function's own frame, and what it calls."""
    own, calls = {}, {}
    name, probed = None, False
    for line in open(path, encoding="utf-8"):
        start = re.match(r"[0-9a-f]+ <(.+)>:$", line.rstrip())
        if start:
            name, probed = start.group(1), False
            own[name], calls[name] = 8, []
            continue
        called = re.search(r"R_X86_64_PLT32\s+(?:\.text\.)?(.+?)(?:[-+]0x[0-9a-f]+)?$", line.rstrip())
        if called:
            calls[name].append(called.group(1))
            continue
        code = line.split("\t", 1)[1].strip() if "\t" in line and name else ""
        if code.startswith("push"):
            own[name] += 8
        elif re.match(r"sub +\$0x[0-9a-f]+,%r11$", code):
            # a large frame: %r11 is where a loop ends that takes one page after the other
            own[name] += number(code.split("$")[1].split(",")[0])
            probed = True
        elif re.match(r"sub +\$0x[0-9a-f]+,%rsp$", code):
            size = number(code.split("$")[1].split(",")[0])
            if not (probed and size == PAGE):
                own[name] += size
            probed = False
        elif re.match(r"(sub|and|lea|mov|xchg) .*,%rsp$", code):
            stop(name + " takes a stack that cannot be read here: " + code)
    return own, calls


def deepest(name, own, calls, above=()):
    """The chain of calls with the most bytes from this function on; of the C library's functions nothing is known here."""
    below = [deepest(c, own, calls, above + (name,)) for c in calls[name] if c in own and c not in above + (name,)]
    return [name] + max(below, key=lambda chain: total(chain, own), default=[])


def total(chain, own):
    return sum(own[f] for f in chain)


def whole_calls(limits, own, calls):
    """A row for each call; those above their limit."""
    passed = []
    for entry, limit in limits.items():
        if entry not in own:
            stop("the archive has no function " + entry + " of its own")
        chain = deepest(entry, own, calls)
        most = total(chain, own)
        print(f"| `{entry}` | {own[entry]:,} | {most:,} | {limit:,} | {shown(chain[1:], own)} |")
        if limit < most:
            passed.append(entry)
    return passed


def main():
    own, calls = read(sys.argv[1])
    if PLACING not in own:
        stop("the archive has no function " + PLACING + " of its own")
    print("\n| Call | Own frame | Bytes at most | Limit | Most |\n|---|---|---|---|---|")
    passed = whole_calls(LIMITS, own, calls) + whole_calls(ADDING_LIMITS, *read(sys.argv[2])) + whole_calls(ENGINE_LIMITS, *read(sys.argv[3]))
    print("\n| Build | Phase below it | Bytes with the build's own | Frames of the phase |\n|---|---|---|---|")
    for entry in BUILDS:
        for phase in dict.fromkeys(c for c in calls[entry] if c in own):
            chain = [entry] + deepest(phase, own, calls)
            print(f"| `{entry}` | `{phase}` | {total(chain, own):,} | {shown(chain[1:], own)} |")
            if phase == PLACING and PLACING_LIMIT < total(chain, own):
                passed.append(entry + " while rows are placed")
        if PLACING not in calls[entry]:
            stop(entry + " has the placing in its own frame")
    print()
    if passed:
        stop("above the limit: " + ", ".join(passed))


def shown(chain, own):
    return ", ".join(f"`{f}` {own[f]:,}" for f in chain)


main()
