"""python3 tests/try_engines.py [EXAMPLES], by hand and as root: portfolios and batches by GNU parallel and by Slurm.

It needs Debian's packages slurmctld, slurmd, slurm-client, munge, parallel, and openssh-server. Slurm and sshd are
started for this machine alone, in a folder of their own that goes at the end, and are ended by the process numbers that
they wrote. README.md has what it printed.
"""

from __future__ import annotations

import os
import shutil
import signal
import socket
import subprocess
import sys
import tempfile
import time
from typing import Callable, Iterator, List, Sequence

TOP = os.path.dirname(os.path.dirname(os.path.abspath(__file__)))
sys.path.insert(0, TOP)

from jambulskeg.program import find

EXAMPLES = (sys.argv[1:] or [os.path.join(os.path.dirname(TOP), "examples")])[0]
TRIES = "20000"
SSH_PORT = 20222
CONF = """ClusterName=one
SlurmctldHost={host}(127.0.0.1)
AuthType=auth/munge
SlurmUser=root
SlurmdUser=root
StateSaveLocation={folder}/state
SlurmdSpoolDir={folder}/spool
SlurmctldPidFile={folder}/ctld.pid
SlurmdPidFile={folder}/slurmd.pid
SlurmctldLogFile={folder}/log/ctld.log
SlurmdLogFile={folder}/log/slurmd.log
ProctrackType=proctrack/linuxproc
TaskPlugin=task/none
SelectType=select/cons_tres
SelectTypeParameters=CR_Core
ReturnToService=2
NodeName={host} NodeAddr=127.0.0.1 CPUs={processors} State=UNKNOWN
PartitionName=all Nodes=ALL Default=YES MaxTime=INFINITE State=UP
"""
SSHD = """Port {port}
ListenAddress 127.0.0.1
HostKey {folder}/host
AuthorizedKeysFile {folder}/key.pub
PidFile {folder}/sshd.pid
StrictModes no
PermitRootLogin prohibit-password
PasswordAuthentication no
"""


def run(*words: str, folder: str = TOP) -> "subprocess.CompletedProcess[str]":
    """Runs a command to its end."""
    return subprocess.run(words, cwd=folder, stdout=subprocess.PIPE, stderr=subprocess.PIPE, text=True, check=False)


def package(*words: str, folder: str) -> "subprocess.CompletedProcess[str]":
    """Runs python -m jambulskeg in a folder."""
    return run(sys.executable, "-m", "jambulskeg", *words, folder=folder)


def write(path: str, text: str) -> None:
    """Writes a file."""
    with open(path, "w", encoding="utf-8") as file:
        file.write(text)


def start_slurm(folder: str) -> None:
    """Munge, and Slurm with this machine as its one node."""
    for name in ("state", "spool", "log"):
        os.makedirs(os.path.join(folder, name))
    os.makedirs("/run/munge", exist_ok=True)
    shutil.chown("/run/munge", "munge")
    if run("munge", "-n").returncode:
        run("su", "munge", "-s", "/bin/sh", "-c", "/usr/sbin/munged")
        STOPS.append(lambda: stop("/run/munge/munged.pid"))
    conf = os.path.join(folder, "slurm.conf")
    processors = str(os.cpu_count())
    write(conf, CONF.format(host=socket.gethostname(), folder=folder, processors=processors))
    os.environ["SLURM_CONF"] = conf
    for daemon, pid in (("slurmctld", "ctld.pid"), ("slurmd", "slurmd.pid")):
        print("$", daemon, run(daemon, "-f", conf).stderr.strip())
        STOPS.append(lambda pid=pid: stop(os.path.join(folder, pid)))  # type: ignore[misc]
    for _ in range(30):
        time.sleep(1)
        if " idle " in run("sinfo").stdout:
            break
    print(run("sinfo", "--noheader", "--format=%P %a %D %T").stdout.strip())


def start_sshd(folder: str) -> None:
    """A server for ssh at this machine, with keys of its own."""
    for name in ("host", "key"):
        run("ssh-keygen", "-q", "-t", "ed25519", "-N", "", "-f", os.path.join(folder, name))
    os.makedirs("/run/sshd", exist_ok=True)
    conf = os.path.join(folder, "sshd_config")
    write(conf, SSHD.format(port=SSH_PORT, folder=folder))
    print("$ sshd", run("/usr/sbin/sshd", "-f", conf).stderr.strip())
    STOPS.append(lambda: stop(os.path.join(folder, "sshd.pid")))


def login_of(folder: str) -> str:
    """The machine by ssh as GNU parallel takes it."""
    options = "-o StrictHostKeyChecking=no -o UserKnownHostsFile=/dev/null -o LogLevel=ERROR"
    return f"ssh -p {SSH_PORT} -i {folder}/key {options} root@127.0.0.1"


STOPS: List[Callable[[], None]] = []
"""What is done at the end, the last first."""


def stop(path: str) -> None:
    """Ends the process whose number a file has."""
    try:
        with open(path, encoding="ascii") as file:
            os.kill(int(file.read()), signal.SIGTERM)
    except (OSError, ValueError) as problem:
        print("not ended:", problem)


def engines(folder: str) -> Iterator[Sequence[str]]:
    """The words of each engine."""
    yield ["--with", "own"]
    yield ["--with", "parallel"]
    yield ["--with", "parallel", "--sshlogin", ":"]
    yield ["--with", "parallel", "--sshlogin", login_of(folder)]
    yield ["--with", "slurm", "--option=--partition=all"]


def shown(words: Sequence[str], folder: str) -> str:
    """The words of an engine; the machine by ssh is called LOGIN."""
    return " ".join("LOGIN" if word == login_of(folder) else word for word in words)


def compare_portfolios(folder: str, names: Sequence[str]) -> None:
    """Each model by each engine: all answers are the same bytes."""
    for name in names:
        answers, tables = set(), set()
        for words in engines(folder):
            began = time.monotonic()
            ran = package(
                "portfolio", os.path.join(EXAMPLES, f"{name}.json"), "--jobs", "2", "--tries", TRIES, *words,
                folder=folder,
            )
            answers.add(ran.stdout)
            tables.add(ran.stderr)
            seconds = time.monotonic() - began
            best = [line for line in ran.stderr.splitlines() if line.startswith("*")] or [ran.stderr]
            told = f"status {ran.returncode}, {seconds:.1f} s; {' '.join(best[0].split())}"
            print(f"portfolio {name} {shown(words, folder)}: {told}")
        print(f"answers of {name} that differ: {len(answers) - 1}; tables of searches: {len(tables) - 1}")


def compare_batches(folder: str) -> None:
    """Some models by each engine: all files are the same bytes."""
    models = os.path.join(folder, "models")
    os.makedirs(models)
    for name in ("breaks-day", "optional-visits", "pickups", "windows-day"):
        shutil.copy(os.path.join(EXAMPLES, f"{name}.json"), models)
    write(os.path.join(models, "faulty.json"), '{"format":1}')
    found = set()
    for number, words in enumerate(engines(folder)):
        out = os.path.join(folder, f"out{number}")
        ran = package("batch", models, "--jobs", "2", "--tries", "2000", "-o", out, *words, folder=folder)
        print(f"batch of {len(os.listdir(models))} files {shown(words, folder)}: status {ran.returncode}")
        texts = [ran.stdout, *(open(os.path.join(out, name), encoding="utf-8").read()
                               for name in sorted(os.listdir(out)))]
        found.add("\n".join(texts))
        print(ran.stdout if number == 0 else "", end="")
    print(f"batches that differ: {len(found) - 1}")


def accidents(folder: str) -> None:
    """A program that kills itself in every other search, files of an earlier run, and a program that is not there."""
    bad = os.path.join(folder, "bad program")
    # The model's text tells the searches apart: those whose lambda is 1/5 end by a signal.
    write(bad, f'#!/bin/sh\ninput=$(cat)\ncase $input in *"[1,5]"*) kill -9 $$;; esac\n'
               f'printf "%s" "$input" | {find()} "$@"\n')
    os.chmod(bad, 0o755)
    kept = os.path.join(folder, "kept")
    model = os.path.join(EXAMPLES, "breaks-day.json")
    for engine in ("parallel", "slurm"):
        base = ["portfolio", model, "--jobs", "2", "--tries", "1000", "--with", engine]
        told = [["--remote-program", bad], ["--remote-program", bad, "--keep-going"], ["--remote-program", "/no/such"]]
        told += [["--folder", kept], ["--folder", kept]] if engine == "slurm" else []
        for words in told:
            ran = package(*base, *words, folder=folder)
            lines = ran.stderr.splitlines()
            said = ([line for line in lines if line.startswith("*")] or lines[-1:] or ["nothing"])[0]
            line = f"{engine} {' '.join(words)}: status {ran.returncode}; {' '.join(said.split())}"
            print(line.replace(folder, "FOLDER"))


def stopped(folder: str) -> None:
    """A portfolio that is stopped from the keyboard leaves nothing behind."""
    slow = os.path.join(folder, "slow")
    write(slow, "#!/bin/sh\nexec sleep 599\n")
    os.chmod(slow, 0o755)
    model = os.path.join(EXAMPLES, "breaks-day.json")
    for engine in ("parallel", "slurm"):
        words = [sys.executable, "-m", "jambulskeg", "portfolio", model, "--with", engine, "--jobs", "2"]
        process = subprocess.Popen([*words, "--remote-program", slow], cwd=folder, stderr=subprocess.DEVNULL)
        for _ in range(60):
            time.sleep(1)
            if "sleep 599" in run("ps", "-eo", "args").stdout:
                break
        began = run("ps", "-eo", "args").stdout.count("sleep 599")
        process.send_signal(signal.SIGINT)
        status = process.wait(60)
        time.sleep(5)
        left = run("ps", "-eo", "args").stdout.count("sleep 599")
        jobs = run("squeue", "--noheader").stdout.strip() or "none"
        print(f"{engine} stopped: status {status}; {began} searches ran, {left} are left; jobs of Slurm: {jobs}")


def main() -> None:
    """Tries all, and ends what it started."""
    os.environ["PYTHONPATH"] = TOP
    os.environ["VR_CLI"] = os.path.abspath(find())
    with tempfile.TemporaryDirectory() as folder:
        try:
            start_sshd(folder)
            start_slurm(folder)
            compare_portfolios(folder, ["service-day", "pickups"])
            compare_batches(folder)
            accidents(folder)
            stopped(folder)
            print("left in the folder of searches:", [n for n in os.listdir(folder) if n.startswith("jambulskeg-")])
        finally:
            for end in reversed(STOPS):
                end()
            time.sleep(2)


if __name__ == "__main__":
    main()
