"""The commands of docs/MANY-CAPTURES.md with the engines themselves: GNU parallel, here and by ssh, and Slurm.

Each engine has its configuration, keys, sockets, logs and homes in the folder of its test, listens on 127.0.0.1 alone,
and is stopped when the test ends, however that ends. The page is run as it stands, with further captures in its folder.
"""

import getpass
import os
import random
import re
import shutil
import socket
import subprocess
import time
from contextlib import ExitStack, contextmanager
from pathlib import Path
from typing import Callable, Dict, Iterator, List, NamedTuple, Optional, Sequence

from needs import Skipped, needs, told_of
from shells import run_in_shell
from tests.case import SCRIPTS, SECONDS, TOP, Word, listed, packed
from tests.parts import dirty_line

PAGE = TOP / "docs" / "MANY-CAPTURES.md"

# Daemons are in folders that are not on the path of every user.
SYSTEM_PATH = f"{os.environ.get('PATH', os.defpath)}:/usr/sbin:/sbin"

# How long an engine may take until it answers, and until it ends, in seconds.
STARTS, ENDS = 60.0, 15.0

# How many captures the tests add to those of the page, and which of them is cut off.
ADDED, CUT_OFF = 8, 5

Environment = Dict[str, str]


class Step(NamedTuple):
    """A command of the page, and what it is shown to write; none where the page does not show that."""

    command: str
    shown: Optional[str]


def section(title: str) -> str:
    """The text of a section of the page."""
    text = PAGE.read_text(encoding="utf-8")
    return text.split(f"\n## {title}\n")[1].split("\n## ")[0]


def steps_of(text: str) -> Iterator[Step]:
    """The indented lines of a text: each after a `$` with what follows it, each other alone."""
    text = re.sub(r"^```.*?^```$", "", text, flags=re.MULTILINE | re.DOTALL)
    for block in re.findall(r"(?:^ {4}.*\n)+", text, flags=re.MULTILINE):
        lines = [line[4:] for line in re.sub(r"\\\n *", "", block).splitlines()]
        if not lines[0].startswith("$ "):
            yield from (Step(line, None) for line in lines)
            continue
        for part in re.split(r"^\$ ", "".join(f"{line}\n" for line in lines), flags=re.MULTILINE)[1:]:
            command, _, shown = part.partition("\n")
            yield Step(command, shown)


def write_scripts(text: str, folder: Path) -> None:
    """Puts each script that a text shows after its name into a folder."""
    for name, script in re.findall(r"`([\w-]+\.sh)`:\n\n```sh\n(.*?)^```$", text, flags=re.MULTILINE | re.DOTALL):
        (folder / name).write_text(script, encoding="ascii")


def run_step(step: Step, folder: Path, environment: Environment) -> List[str]:
    """What is wrong with a run of a command; a command whose output is not shown may write what it likes."""
    wrote = run_in_shell(step.command, folder, environment, SECONDS)[0].decode(errors="replace")
    return [] if step.shown in (None, wrote) else [f"{step.command}: the page has {step.shown!r}, it wrote {wrote!r}"]


def run_sections(titles: Sequence[str], folder: Path, environment: Environment) -> List[str]:
    problems = []
    for title in titles:
        text = section(title)
        write_scripts(text, folder)
        steps = list(steps_of(text))
        problems += [] if steps else [f"{title}: there is no command"]
        for step in steps:
            problems += run_step(step, folder, environment)
    return problems


def furnished(folder: Path) -> Environment:
    """Gives a folder what the page has: program and scripts on the path, and `examples`; and the environment."""
    (folder / "bin").mkdir()
    (folder / "bin" / "port1").symlink_to(os.environ["PORT1"])
    (folder / "examples").symlink_to(TOP / "examples")
    path = f"{folder / 'bin'}:{SCRIPTS}:{SYSTEM_PATH}"
    return {"PATH": path, "LC_ALL": "C", "HOME": str(folder), "PARALLEL_HOME": str(folder / ".parallel")}


def add_captures(folder: Path) -> None:
    """Further captures, of which one is cut off in its body."""
    generator = random.Random(11)
    for number in range(ADDED):
        capture = packed(dirty_line(generator, 4000 + generator.randrange(8)))
        (folder / "captures" / f"more {number:02d}.ts2").write_bytes(capture[: 300 if number == CUT_OFF else None])


def problems_of_listings(place: Path) -> List[str]:
    """Whether each capture without a fault has the listing of one run, and one with a fault none."""
    options, problems = ["--dict", (place / "bus.toml").read_text(encoding="ascii").strip()], []
    for capture in sorted((place / "captures").glob("*.ts2")):
        one, listing = listed(capture.read_bytes(), options), capture.with_suffix(".list")
        found = listing.read_bytes() if listing.exists() else None
        if found != (one.stdout if one.returncode == 0 else None):
            problems.append(f"{capture.name}: status {one.returncode} in one run; its listing has {str(found)[:60]}")
    return problems


def problems_of_join(place: Path) -> List[str]:
    """Whether the listing of the big capture is that of one run, and that it is of eight parts."""
    options = ["--dict", (place / "bus.toml").read_text(encoding="ascii").strip()]
    one = listed((place / "big.ts2").read_bytes(), options).stdout
    count = len(list((place / "big-parts").glob("part-*.list")))
    problems = [] if count == 8 else [f"{count} parts were listed"]
    return problems + ([] if one and (place / "big.list").read_bytes() == one else ["big.list: not as one run"])


def column(log: Path, number: int) -> List[str]:
    """A column of a job log, in the order of the jobs."""
    rows = [line.split("\t") for line in log.read_text(encoding="utf-8").splitlines()[1:]]
    return [row[number - 1] for row in sorted(rows, key=lambda row: int(row[0]))]


def problems_of_log(log: Path, failed: int, hosts: Sequence[str]) -> List[str]:
    """Whether so many jobs failed, with the status of `port1` for a fault, and each host had a job."""
    statuses, ran = column(log, 7), set(column(log, 2))
    problems = [] if statuses.count("2") == failed else [f"{log.name}: the statuses are {statuses}"]
    problems += [] if set(statuses) <= {"0", "2"} else [f"{log.name}: the statuses are {statuses}"]
    return problems + ([] if ran == set(hosts) else [f"{log.name}: {sorted(ran)} ran the jobs"])


def told(log: Path, folder: Path) -> None:
    """Shows a log where the variable SHOW_LOGS is set."""
    if os.environ.get("SHOW_LOGS"):
        print(f"{log.relative_to(folder)}:\n{log.read_text(encoding='utf-8')}", flush=True)


@contextmanager
def daemon(words: Sequence[Word], log: Path, environment: Environment) -> Iterator[subprocess.Popen]:
    """A process that runs until the end, and is told to end even where this one is killed."""
    with log.open("wb") as sink:
        wrapped = ["setpriv", "--pdeathsig", "TERM", *words]
        process = subprocess.Popen(wrapped, stdin=subprocess.DEVNULL, stdout=sink, stderr=sink, env=environment)
    try:
        yield process
    finally:
        process.terminate()
        try:
            process.wait(ENDS)
        except subprocess.TimeoutExpired:
            process.kill()
            process.wait()


def wait_for(what: str, process: subprocess.Popen, log: Path, answers: Callable[[], bool]) -> None:
    """Waits until an engine answers; where it ends before, or never does, the test is not run, and its log says why."""
    end = time.monotonic() + STARTS
    while not answers():
        if process.poll() is not None or time.monotonic() > end:
            lines = log.read_text(encoding="utf-8", errors="replace").strip().splitlines()
            raise OSError(f"{what} does not answer: {' / '.join(lines[-3:])}")
        time.sleep(0.1)


def free_port() -> int:
    with socket.socket() as one:
        one.bind(("127.0.0.1", 0))
        return one.getsockname()[1]


def is_open(port: int) -> bool:
    with socket.socket() as one:
        return one.connect_ex(("127.0.0.1", port)) == 0


def needs_tools(*tools: str) -> None:
    for tool in tools:
        if shutil.which(tool, path=SYSTEM_PATH) is None:
            raise Skipped(told_of(tool))


def system(tool: str) -> str:
    """Where a program is; a daemon of ssh wants to be called by its whole path."""
    return shutil.which(tool, path=SYSTEM_PATH) or tool


def parallel_here(folder: Path) -> List[str]:
    """The page by GNU parallel on this machine, as it is shown, and again with further captures."""
    needs("parallel")
    environment = furnished(folder)
    titles = ["The captures", "GNU parallel", "One big capture", "Parts by GNU parallel"]
    problems = run_sections(titles, folder, environment)
    problems += problems_of_listings(folder) + problems_of_join(folder)
    add_captures(folder)
    first = next(steps_of(section("GNU parallel")))
    run_step(Step(first.command, None), folder, environment)
    problems += problems_of_listings(folder) + problems_of_log(folder / "jobs.log", 1, [":"])
    told(folder / "jobs.log", folder)
    return problems


LOGIN = """#!/bin/sh
# What ssh runs at a machine of the test: the command that it was given, in a home in the folder of the test.
HOME=$1
export HOME
cd && exec sh -c "$SSH_ORIGINAL_COMMAND"
"""

SSHD = """Port {port}
ListenAddress 127.0.0.1
HostKey {keys}/host
AuthorizedKeysFile {keys}/authorized_keys
PidFile none
UsePAM no
StrictModes no
PasswordAuthentication no
KbdInteractiveAuthentication no
PermitRootLogin prohibit-password
MaxStartups 100
"""

CLIENT = """Host alpha beta
  HostName 127.0.0.1
  Port {port}
  User {user}
  HostKeyAlias machine
  IdentityFile {keys}/%n
  IdentitiesOnly yes
  UserKnownHostsFile {keys}/known_hosts
  GlobalKnownHostsFile none
  StrictHostKeyChecking yes
  BatchMode yes
  LogLevel ERROR
"""

# sshd wants an empty folder /run/sshd where root runs it. Where there is none it gets one that only it sees.
UNSEEN_RUN = ["unshare", "--mount", "sh", "-c", 'mount -t tmpfs tmpfs /run && mkdir /run/sshd && exec "$@"', "sh"]


def write_keys(folder: Path, port: int) -> Path:
    """Keys of the machine and of its two names, each of which has a home of its own; and the files of ssh."""
    keys = folder / "keys"
    keys.mkdir()
    login = keys / "login"
    login.write_text(LOGIN, encoding="ascii")
    login.chmod(0o755)
    for name in ("host", "alpha", "beta"):
        subprocess.run(["ssh-keygen", "-q", "-t", "ed25519", "-N", "", "-f", keys / name], check=True, timeout=SECONDS)
    allowed = []
    for name in ("alpha", "beta"):
        (folder / name).mkdir()
        key = (keys / f"{name}.pub").read_text(encoding="ascii").strip()
        allowed.append(f'command="{login} {folder / name}" {key}\n')
    (keys / "authorized_keys").write_text("".join(allowed), encoding="ascii")
    (keys / "known_hosts").write_text(f"machine {(keys / 'host.pub').read_text(encoding='ascii')}", encoding="ascii")
    (keys / "sshd").write_text(SSHD.format(port=port, keys=keys), encoding="ascii")
    (keys / "ssh").write_text(CLIENT.format(port=port, keys=keys, user=getpass.getuser()), encoding="ascii")
    return keys


@contextmanager
def machines(folder: Path, environment: Environment) -> Iterator[Environment]:
    """Two names by which ssh reaches this machine, and the environment in which it does."""
    port = free_port()
    keys, log = write_keys(folder, port), folder / "sshd.log"
    unseen = UNSEEN_RUN if os.getuid() == 0 and not Path("/run/sshd").is_dir() else []
    with daemon([*unseen, system("sshd"), "-D", "-e", "-f", keys / "sshd"], log, environment) as process:
        wait_for("sshd", process, log, lambda: is_open(port))
        yield {**environment, "PARALLEL_SSH": f"ssh -F {keys / 'ssh'}"}


def parallel_by_ssh(folder: Path) -> List[str]:
    """The page by GNU parallel on other machines, with further captures: in a folder that all share, and carried."""
    needs_tools("parallel", "ssh", "sshd", "ssh-keygen", "rsync", "setpriv", "unshare")
    environment = furnished(folder)
    problems = run_sections(["The captures"], folder, environment)
    add_captures(folder)
    steps = list(steps_of(section("Other machines")))
    with machines(folder, environment) as reached:
        for step in steps:
            for listing in (folder / "captures").glob("*.list"):
                listing.unlink()
            problems += run_step(step, folder, reached)
            problems += problems_of_listings(folder) if step.shown is None else []
        problems += run_sections(["One big capture", "Parts on other machines"], folder, reached)
    problems += problems_of_join(folder)
    for name, failed in [("shared.log", 2), ("carried.log", 2), ("parts.log", 0)]:
        problems += problems_of_log(folder / name, failed, ["alpha", "beta"])
        told(folder / name, folder)
    left = [path for home in ("alpha", "beta") for path in (folder / home).rglob("*.ts2")]
    return problems + [f"left there: {path}" for path in left]


SLURM = """ClusterName=bus
SlurmctldHost={host}(127.0.0.1)
SlurmctldPort={controller}
SlurmdPort={node}
AuthType=auth/munge
AuthInfo=socket={folder}/munge.socket
CredType=cred/munge
SlurmUser={user}
SlurmdUser={user}
StateSaveLocation={folder}/state
SlurmdSpoolDir={folder}/spool
SlurmctldPidFile={folder}/slurmctld.pid
SlurmdPidFile={folder}/slurmd.pid
SlurmctldLogFile={folder}/slurmctld.log
SlurmdLogFile={folder}/slurmd.log
MailProg=/bin/true
ProctrackType=proctrack/linuxproc
TaskPlugin=task/none
JobAcctGatherType=jobacct_gather/none
AccountingStorageType=accounting_storage/none
JobCompType=jobcomp/filetxt
JobCompLoc={folder}/jobs.txt
SelectType=select/cons_tres
SelectTypeParameters=CR_CPU
SwitchType=switch/none
MpiDefault=none
ReturnToService=2
SlurmdParameters=config_overrides
NodeName=node NodeAddr=127.0.0.1 NodeHostname={host} CPUs=4 State=UNKNOWN
PartitionName=bus Nodes=node Default=YES MaxTime=INFINITE State=UP
"""


def write_configuration(folder: Path) -> int:
    """The configuration of Slurm, and the key of munge; answers the port of the controller."""
    for name in ("state", "spool"):
        (folder / name).mkdir()
    key = folder / "munge.key"
    key.write_bytes(os.urandom(1024))
    key.chmod(0o400)
    folder.chmod(0o755)
    host, controller = socket.gethostname().split(".")[0], free_port()
    words = {"host": host, "controller": controller, "node": free_port(), "user": getpass.getuser(), "folder": folder}
    (folder / "slurm.conf").write_text(SLURM.format(**words), encoding="ascii")
    return controller


def munge_words(folder: Path) -> List[Word]:
    places = {"key-file": "key", "socket": "socket", "pid-file": "pid", "log-file": "log", "seed-file": "seed"}
    options = [f"--{option}={folder / f'munge.{ending}'}" for option, ending in places.items()]
    return [system("munged"), "--foreground", "--force", *options]


def output_of(words: Sequence[str], environment: Environment) -> str:
    ran = subprocess.run(words, env=environment, capture_output=True, text=True, timeout=SECONDS)
    return ran.stdout.strip()


@contextmanager
def cluster(folder: Path, environment: Environment) -> Iterator[Environment]:
    """Slurm with one node, this machine; what still runs of its jobs in the end is cancelled."""
    engine = folder / "slurm"
    engine.mkdir()
    port = write_configuration(engine)
    using = {**environment, "SLURM_CONF": str(engine / "slurm.conf")}
    with ExitStack() as stack:
        munge = stack.enter_context(daemon(munge_words(engine), engine / "munged.out", environment))
        wait_for("munged", munge, engine / "munged.out", (engine / "munge.socket").exists)
        control = stack.enter_context(daemon([system("slurmctld"), "-D"], engine / "slurmctld.out", using))
        wait_for("slurmctld", control, engine / "slurmctld.out", lambda: is_open(port))
        node = stack.enter_context(daemon([system("slurmd"), "-D", "-N", "node"], engine / "slurmd.out", using))
        stack.callback(cancel_all, using)
        idle = ["sinfo", "--noheader", "--format=%T"]
        wait_for("the node of Slurm", node, engine / "slurmd.out", lambda: output_of(idle, using) == "idle")
        yield using


def cancel_all(environment: Environment) -> None:
    """Cancels all jobs, and waits a while until none is left."""
    waiting = ["squeue", "--noheader", "--format=%i"]
    end = time.monotonic() + ENDS
    while output_of(waiting, environment) and time.monotonic() < end:
        subprocess.run(["scancel", f"--user={getpass.getuser()}"], env=environment, timeout=SECONDS)
        time.sleep(0.5)


def states_of(log: Path) -> List[str]:
    """The states of the tasks that ended, by the log of Slurm."""
    return re.findall(r"\bJobState=(\w+)", log.read_text(encoding="utf-8"))


def array_of_slurm(folder: Path) -> List[str]:
    """The page by Slurm, with further captures."""
    needs_tools("munged", "slurmctld", "slurmd", "sbatch", "sinfo", "squeue", "scancel", "setpriv")
    environment = furnished(folder)
    problems = run_sections(["The captures"], folder, environment)
    add_captures(folder)
    with cluster(folder, environment) as using:
        problems += run_sections(["Slurm", "One big capture", "Parts by Slurm"], folder, using)
    problems += problems_of_listings(folder) + problems_of_join(folder)
    log = folder / "slurm" / "jobs.txt"
    wanted = {"COMPLETED": 3 + ADDED - 2 + 8, "FAILED": 2}
    states = states_of(log)
    found = {state: states.count(state) for state in sorted(set(states))}
    told(log, folder)
    logs = "".join(path.read_text(encoding="utf-8") for path in folder.glob("list-*.log"))
    problems += [] if logs == 2 * "port1: capture: short body\n" else [f"the logs of the tasks have {logs!r}"]
    return problems + ([] if found == wanted else [f"Slurm says {found}, not {wanted}"])
