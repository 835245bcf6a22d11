"""The events of a run, as the lines that `audit` takes: the lines that `loop` writes. `simulate` writes what nodes do and not the events. If
the events of a simulation itself are wanted (hostile/carriers), a copy of the program in a folder of its own is made to write each
event's line too, and is built without any proof by `rt try`. That program is used for nothing else."""
import os
import re
import shutil
import subprocess

# After this head, in the function by which an event happens in a simulation, its line is written.
HEAD = re.compile(r"( {4}pub fn happen\(.*?\n {4}\{\n)", re.S)
LINE = """        match wrp_trace::event_line(alloc, event, self.world.net()) {
            Ok(line) => {
                text.extend_from_slice(b"= ")?;
                text.extend_from_slice(&line)?;
                text.push(b'\\n')?;
            }
            Err(fault) => return Err(fault),
        }
"""


def below(top, name, found):
    """The crates that a crate depends on, and itself."""
    lines = dict(line.split(":", 1) for line in open(f"{top}/crates.txt").read().splitlines() if re.match(r"[a-z]", line))
    names = {key.split()[0]: value.split() for key, value in lines.items()}

    def visit(it):
        if it in names and it not in found:
            found.add(it)
            for other in names[it]:
                visit(other)

    visit(name)
    return [line for line in open(f"{top}/crates.txt").read().splitlines() if re.match(r"[a-z]", line) and re.split(r"[ :]", line)[0] in found]


def copy(top, folder):
    """Copies what the program is built from, with the line put in."""
    found = set()
    lines = below(top, "wrnet", found)
    open(f"{folder}/crates.txt", "w").write("\n".join(lines) + "\n")
    shutil.copy(f"{top}/HANDLES", folder)
    for name in found:
        shutil.copytree(f"{top}/crates/{name}", f"{folder}/crates/{name}", ignore=shutil.ignore_patterns("out", "must-fail"))
    source = f"{folder}/crates/wrp_simulate/src/simulation.rt"
    text, count = HEAD.subn(lambda it: it[1] + LINE, open(source).read(), count=1)
    if not count:
        raise SystemExit("bench: no function `happen` in wrp_simulate/src/simulation.rt, whose events are to be written")
    open(source, "w").write(text)


def of_run(program, run):
    """The event lines of a run, which an input of `simulate` describes, as `loop` writes them: it has the same rules, and writes each event after `= `."""
    ran = subprocess.run([program, "loop", "--seed", "1"], input=run, stdout=subprocess.PIPE, text=True)
    lines = [line[2:] for line in ran.stdout.splitlines() if line.startswith("= ")]
    if ran.returncode or not lines:
        raise SystemExit(f"bench: {len(lines)} events came, and the status {ran.returncode}: {ran.stdout[-500:]}")
    return "\n".join(lines) + "\n"
