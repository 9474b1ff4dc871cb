"""What a measurement needs, and the limits that it is held to. A line on standard error says what isn't there, and the run ends with 2."""
import os, shutil, sys

ROOT = os.path.dirname(os.path.dirname(os.path.abspath(__file__)))


def say(what):
    print("%s: %s" % (os.path.basename(sys.argv[0]), what), file=sys.stderr)


def need(programs, tools):
    """Programs: their paths from the repository's root, and the command that builds each. Tools: their names and packages."""
    lines = ["%s isn't built: %s" % (path, command) for path, command in programs if not os.path.exists(os.path.join(ROOT, path))]
    lines += ["%s isn't installed: apt-get install %s" % (tool, package) for tool, package in tools if not shutil.which(tool)]
    for line in lines:
        say(line)
    if lines:
        sys.exit(2)


def limits(kind):
    """The limits of a kind in bench/limits, by name."""
    found = {}
    with open(os.path.join(ROOT, "bench", "limits")) as f:
        for line in f:
            words = line.split("#")[0].split()
            if words and words[0] == kind:
                found[words[1]] = int(words[2])
    return found
