#!/usr/bin/env python3
"""Makes release/ anew from the program that was built here, or says whether it fits.

usage: tools/release.py [--check | --compare]

release/ has the program that ./anyk runs where nothing was built, packed as anyk.gz, and a file
manifest: the version, the digest of the sources that it was built from, its SHA-256, and the line
of the kit that built it. Without an option the program in crates/anyk_cli/out is packed, which has
to be built from the sources as they are, by `./anyk build` or `rt ci`. What is packed has the same
bytes each time.

  --check    says in one line whether release/ fits the sources as they are: status 0 if it does,
             and else 1
  --compare  compares its program, if it fits, with the one that was built here, byte for byte:
             status 1 if they differ
"""
import gzip
import hashlib
import os
import subprocess
import sys
import zlib

TOP = os.path.dirname(os.path.dirname(os.path.realpath(__file__)))
PROGRAM = f"{TOP}/crates/anyk_cli/out/anyk_cli"
RELEASE = f"{TOP}/release"
PACKED, MANIFEST = f"{RELEASE}/anyk.gz", f"{RELEASE}/manifest"


class Refused(Exception):
    """What is said, and nothing more is done."""


def say(text):
    print(f"release: {text}", flush=True)


def output_of(*words):
    """What a command prints, without the end of its line."""
    try:
        ran = subprocess.run(words, stdin=subprocess.DEVNULL, stdout=subprocess.PIPE, check=True)
    except (OSError, subprocess.CalledProcessError) as error:
        raise Refused(f"{words[0]} {words[1]} failed: {error}")
    return ran.stdout.decode().strip()


def digest():
    """The digest of the sources, as the launcher takes it."""
    return output_of("bash", "-c", '. "$0/tools/release.sh" && digest_of_sources "$0"', TOP)


def content(file):
    with open(file, "rb") as it:
        return it.read()


def sum_of(program):
    return hashlib.sha256(program).hexdigest()


def version():
    return content(f"{TOP}/VERSION").decode().strip()


def manifest():
    """What the manifest says, by the first word of each line."""
    try:
        lines = content(MANIFEST).decode().splitlines()
    except OSError:
        raise Refused("there is none: tools/release.py makes one")
    return {name: said for name, _, said in (line.partition(" ") for line in lines)}


def packed_program():
    try:
        return gzip.decompress(content(PACKED))
    except (OSError, EOFError, zlib.error) as error:
        raise Refused(f"its program cannot be unpacked: {error}")


def is_of_sources(said):
    return said.get("sources") == digest()


def check():
    """Says whether release/ fits the sources, and returns the status."""
    said = manifest()
    if not is_of_sources(said):
        raise Refused("it was made from other sources: ./anyk leaves it alone, "
                      "and tools/release.py makes it anew")
    if said.get("version") != version():
        raise Refused(f"it has version {said.get('version')}, and VERSION has {version()}")
    program = packed_program()
    if said.get("program") != sum_of(program):
        raise Refused("its program has another SHA-256 than its manifest says")
    say(f"it fits the sources: version {said['version']}, {len(program)} bytes, by {said['kit']}")
    return 0


def compare():
    """Compares its program with the one that was built here, if both are of the same sources and
    kit, and returns the status."""
    said = manifest()
    if not is_of_sources(said):
        say("left alone, it was made from other sources")
        return 0
    kit = output_of("rt", "version")
    if said.get("kit") != kit:
        say(f"SKIPPED, another kit built it\n  it: {said.get('kit')}\n  rt: {kit}")
        return 0
    program = packed_program()
    if program != content(PROGRAM) or said.get("program") != sum_of(program):
        raise Refused("FAILED, its program is another than was built from the same sources")
    say("passed: its program is the one that was built, byte for byte")
    return 0


def is_built():
    """Whether the launcher takes the program for that of the sources as they are."""
    how = {"stdin": subprocess.DEVNULL, "stdout": subprocess.DEVNULL}
    env = {**os.environ, "ANYK_NO_BUILD": "1"}
    return subprocess.call([f"{TOP}/anyk", "build"], env=env, **how) == 0


def put(file, text):
    """Writes a file in one step."""
    with open(f"{file}.new", "wb") as it:
        it.write(text)
    os.replace(f"{file}.new", file)


def make():
    """Makes release/ anew, and returns the status."""
    if not is_built():
        raise Refused("nothing was made: the program has to be built first, by ./anyk build")
    program = content(PROGRAM)
    kit = output_of("rt", "version")
    facts = {"version": version(), "sources": digest(), "program": sum_of(program), "kit": kit}
    text = "".join(f"{name} {said}\n" for name, said in facts.items()).encode()
    packs = subprocess.run(["gzip", "-n", "-9"], input=program, stdout=subprocess.PIPE, check=True)
    packed = packs.stdout
    os.makedirs(RELEASE, exist_ok=True)
    if [os.path.exists(it) and content(it) for it in (PACKED, MANIFEST)] == [packed, text]:
        say("it was the program of these sources already, and nothing was changed")
        return 0
    # The manifest comes last: without it, or beside another program, nothing is taken.
    put(PACKED, packed)
    put(MANIFEST, text)
    say(f"made from {os.path.relpath(PROGRAM, TOP)}: {len(program)} bytes, packed {len(packed)}")
    print(text.decode(), end="")
    return 0


def main():
    words = sys.argv[1:]
    if words in (["-h"], ["--help"]):
        print(__doc__.strip())
        return 0
    does = {(): make, ("--check",): check, ("--compare",): compare}.get(tuple(words))
    if not does:
        print("release: usage: tools/release.py [--check | --compare]", file=sys.stderr)
        return 2
    try:
        return does()
    except Refused as why:
        say(why)
        return 1


if __name__ == "__main__":
    sys.exit(main())
