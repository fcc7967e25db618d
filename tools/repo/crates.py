"""What crates.txt lists, the laws of crates, and what checks leave of each crate in crates/*/out."""
import os
import re

from zygos_tools.repository import TOP

MADE = re.compile(r"Rattle-(\w+)-proofs\.(.+)\.Lts\.oantt")
# a law: its page, its name, and the laws that its body calls, if there are any
LAW = re.compile(r"((?:^ *///.*\n)+)(?: *#\[.*\n)*^ *pub fn (\w+)(?:<[^>]*>)?\(\)\n(?:(?!pub fn)[\s\S])*?"
                 r"^\{((?:\n +\w+(?:::<\w+>)?\(\);)*)\n?\}", re.M)
CALLED = re.compile(r"\b(\w+)(?:::<[^>]*>)?\(\);")
# a function's head, up to its name; its clauses; and what a body calls, or passes by name
FUNCTION = re.compile(r"^(?P<indent> *)(?P<pub>pub )?(?:pub\(\w+\) )?(?:const |unsafe )*fn (?P<name>\w+)", re.M)
CLAUSES = re.compile(r"^\s*(?:requires|ensures|ghost|let ghost)\b.*?\}\s*$", re.M | re.S)
NAMES = re.compile(r"\b(\w+)(?:::<[^>]*>)?(?=\s*\()|(?:::|\()(\w+)(?=\)|,)")
PROGRAMS = "zygos", "linear", "judge"
# what the language and the library's traits call
ROOTS = "main", "drop", "read", "write", "finish", "eq", "clone", "cmp", "hash", "next", "from"


def crates_in(top):
    """The crates, lowest first, with the crates that each names."""
    with open(f"{top}/crates.txt", encoding="utf-8") as file:
        lines = [line.partition("#")[0].partition(":") for line in file]
    return {head.split()[0]: names.split() for head, _, names in lines if head.strip()}


def functions_of(top, name):
    """The size of what the newest check made of each function of a crate, and the file."""
    found = {}
    for at, _, files in os.walk(f"{top}/crates/{name}/out/incremental", followlinks=True):
        for file in files:
            made = MADE.fullmatch(file)
            if made:
                path = f"{at}/{file}"
                function = made[2] if made[1] == name else f"{made[1]}: {made[2]}"
                newest = os.stat(path).st_mtime, os.path.getsize(path), path
                found[function] = max(found.get(function, (0, 0, "")), newest)
    return {function: (size, path) for function, (_, size, path) in found.items()}


def below_of(name, needs, seen=None):
    """The crates that a crate stands on, lowest first."""
    seen = [] if seen is None else seen
    for lower in needs[name]:
        if lower in needs and lower not in seen:
            below_of(lower, needs, seen)
            seen.append(lower)
    return seen


def program_crates(needs):
    """The crates of the programs, lowest first."""
    wanted = {name for program in PROGRAMS if program in needs for name in [*below_of(program, needs), program]}
    return [name for name in needs if name in wanted]


# ---- what a build takes


def shares(names):
    """The processor seconds of each crate in a build of tools/build, by shares.txt; of an unknown one, of a middling crate."""
    with open(f"{TOP}/tools/repo/shares.txt", encoding="utf-8") as file:
        known = {name: float(seconds) for name, seconds in (line.split() for line in file if not line.startswith("#"))}
    middling = sorted(known.values())[len(known) // 2]
    return {name: known.get(name, middling) for name in names}


def afters(names, needs, seconds):
    """The seconds of the longest chain of crates that begins after each crate."""
    after = dict.fromkeys(names, 0.0)
    for name in reversed(names):
        for lower in needs[name]:
            if lower in after:
                after[lower] = max(after[lower], seconds[name] + after[name])
    return after


def finishing_times(names, needs, seconds, processors):
    """When each crate is proved if each takes a processor, and those with the longest chain after them come first."""
    after = afters(names, needs, seconds)
    left, clock, ended = dict(seconds), 0.0, {}
    while left:
        ready = [name for name in left if not any(lower in left for lower in needs[name])]
        running = sorted(ready, key=lambda name: -(seconds[name] + after[name]))[:processors]
        step = min(left[name] for name in running)
        clock += step
        for name in running:
            left[name] -= step
            if left[name] < 1e-6:
                del left[name]
                ended[name] = clock
    return ended


def checks(top):
    """The process, the crate and the processor seconds of each check of a checkout that runs; a quick pass is none."""
    for pid in filter(str.isdigit, os.listdir("/proc")):
        try:
            with open(f"/proc/{pid}/cmdline", "rb") as file:
                words = file.read().decode(errors="replace").split("\0")
            name = words[words.index("--crate-name") + 1]
            if "--only" in words:
                continue
            folder = os.readlink(f"/proc/{pid}/cwd")
            with open(f"/proc/{pid}/stat", encoding="utf-8", errors="replace") as file:
                fields = file.read().rpartition(")")[2].split()
        except (OSError, ValueError, IndexError):
            continue
        if os.path.basename(words[0]) == "rattle" and folder == os.path.realpath(f"{top}/crates/{name}"):
            yield (pid, fields[19]), name, (int(fields[11]) + int(fields[12])) / os.sysconf("SC_CLK_TCK")


def sources(top, name):
    """The text of each file of a crate's source."""
    for at, folders, files in os.walk(f"{top}/crates/{name}/src"):
        folders.sort()
        for file in sorted(files):
            if file.endswith(".rt"):
                with open(f"{at}/{file}", encoding="utf-8") as text:
                    yield text.read()


# laws whose lemmas the proofs of another program cite
CITED = {"a_good_items_file_says_what_a_server_can_have", "recordings_have_no_fault", "there_is_one_recording_fault",
         "there_is_one_window_fault", "windows_have_no_fault"}


def vain_laws(top):
    """The laws of the crates of zygos that no code of them calls, nor a law that it calls, as crate and name."""
    needs = crates_in(top)
    laws, wanted = [], []
    for crate in [*below_of("zygos", needs), "zygos"]:
        for text in sources(top, crate):
            laws += [(crate, name, CALLED.findall(body)) for _, name, body in LAW.findall(text)]
            wanted += CALLED.findall(LAW.sub("", text))
    used = set()
    while wanted:
        called = wanted.pop()
        if called not in used:
            used.add(called)
            wanted += [other for _, name, calls in laws if name == called for other in calls]
    return [(crate, name) for crate, name, _ in laws if name not in used | CITED]


def spare_calls(top):
    """The public functions of the programs' crates that no run of a program reaches, as crate and name.

    A call means each function of its name in its crate and in those below, and any that is not public, as a trait's
    may be. So a function that shares its name with one in use there is not found.
    """
    needs = crates_in(top)
    names = program_crates(needs)
    public, hidden, calls = set(), {}, {}
    for crate in names:
        for text in sources(top, crate):
            text = re.sub(r"(?m)^\s*//.*$", "", LAW.sub("", text))
            for head in FUNCTION.finditer(text):
                rest = text[head.end():]
                end = re.search(rf"(?m)^ {{{len(head['indent'])}}}\}}", rest)
                body = CLAUSES.sub("", rest[:end.end()] if end else rest)
                found = crate, head["name"]
                calls.setdefault(found, set()).update(one or other for one, other in NAMES.findall(body))
                if head["pub"]:
                    public.add(found)
                else:
                    hidden.setdefault(head["name"], set()).add(found)
    seen = {crate: [crate, *below_of(crate, needs)] for crate in names}
    reached, wanted = set(), [found for name in ROOTS for found in hidden.get(name, ())]
    while wanted:
        found = wanted.pop()
        if found not in reached:
            reached.add(found)
            for name in calls[found]:
                wanted += [(crate, name) for crate in seen[found[0]] if (crate, name) in calls]
                wanted += hidden.get(name, ())
    return [found for found in calls if found in public and found not in reached]
