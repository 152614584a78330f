"""What the tests of docs/MANY.md run: its scripts, and while a test runs a Slurm cluster of this
machine alone, and an ssh server on its loopback."""

from __future__ import annotations

import contextlib
import os
import pwd
import shutil
import socket
import subprocess
from dataclasses import dataclass
from pathlib import Path
from typing import Callable, Iterator

from children import comes_true
from commands import TOP, Bench, Outcome, run

MANY, MANY_PAGE = TOP / "examples" / "many", "docs/MANY.md"
CLOUD = (TOP / "examples" / "cloud.toml", TOP / "examples" / "cloud.stim")
# A script of a program that flips the last bit of the header's seed if it has two workers.
FLIPPING = """[ "$5" = 2 ] || exec "{det}" "$@"
"{det}" "$@" | python3 -c 'import sys; b = bytearray(sys.stdin.buffer.read()); b[17] ^= 1
sys.stdout.buffer.write(b)'
"""
# Where Debian has servers, which may not be in a user's path.
SERVERS = "/usr/sbin:/sbin"
PACKAGES = {
    "munged": "munge",
    "parallel": "parallel",
    "sbatch": "slurm-wlm",
    "slurmctld": "slurm-wlm",
    "slurmd": "slurm-wlm",
    "ssh": "openssh-client",
    "ssh-keygen": "openssh-client",
    "sshd": "openssh-server",
    "shellcheck": "shellcheck",
}
# The most seconds that a server may take to begin, or a host to see that it was stopped.
BEGIN = 30


def path_of(tool: str) -> str:
    """A tool's path. Fails if the machine lacks it, and says which Debian package has it."""
    found = shutil.which(tool, path=f"{os.environ.get('PATH', '')}:{SERVERS}")
    assert found, f"no {tool} here: install the Debian package {PACKAGES[tool]}"
    return found


def shell(bench: Bench, text: str, **variables: str) -> Outcome:
    """Runs lines of bash in the bench's folder. A line that fails ends them."""
    environment = {**bench.programs.environment(), "many": str(MANY), **variables}
    return run(["bash", "-e", "-c", text], bench.folder, environment, limit=300)


def write_script(bench: Bench, name: str, text: str) -> Path:
    """A script of sh in the bench's folder, below its first line."""
    path = Path(bench.file(name, f"#!/bin/sh\n{text}"))
    path.chmod(0o755)
    return path


def free_port() -> int:
    with socket.socket() as one:
        one.bind(("127.0.0.1", 0))
        return one.getsockname()[1]


@contextlib.contextmanager
def server(words: list, log: Path, **variables: str) -> Iterator[subprocess.Popen]:
    """A server that is ended afterwards."""
    with open(log, "wb") as out:
        environment = {**os.environ, **variables}
        how = {"stdin": subprocess.DEVNULL, "stdout": out, "stderr": subprocess.STDOUT}
        with subprocess.Popen(words, env=environment, **how) as process:
            try:
                yield process
            finally:
                process.terminate()
                try:
                    process.wait(10)
                except subprocess.TimeoutExpired:
                    process.kill()


# Only programs that have the key of the cluster's munge are heard, and only on the loopback.
SLURM = """ClusterName=tests
SlurmctldHost={host}(127.0.0.1)
CommunicationParameters=NoCtldInAddrAny,NoInAddrAny
SlurmUser={user}
SlurmdUser={user}
AuthType=auth/munge
AuthInfo=socket={folder}/munge.socket
CredType=cred/munge
SlurmctldPort={ports[0]}
SlurmdPort={ports[1]}
StateSaveLocation={folder}/state
SlurmdSpoolDir={folder}/spool
SlurmctldPidFile={folder}/slurmctld.pid
SlurmdPidFile={folder}/slurmd.pid
ProctrackType=proctrack/linuxproc
TaskPlugin=task/none
MpiDefault=none
SelectType=select/cons_tres
SelectTypeParameters=CR_CPU
ReturnToService=2
NodeName={host} NodeAddr=127.0.0.1 CPUs={cpus}
PartitionName=all Nodes=ALL Default=YES State=UP
"""


class NotBegun(Exception):
    """A server doesn't begin here; the text says why."""


def wait_until(is_so: Callable[[], bool], logs: list[Path]) -> None:
    """Waits until servers have begun."""
    if not comes_true(is_so, BEGIN):
        raise NotBegun(" | ".join(log.read_text().strip().split("\n")[-1] for log in logs))


def munge_words(folder: Path) -> list:
    """The server by which a cluster's programs know each other, with a key of its own."""
    key = folder / "munge.key"
    key.touch(0o600)
    key.write_bytes(os.urandom(128))
    files = {"key": key, "pid": folder / "munge.pid", "seed": folder / "munge.seed"}
    words = [f"--{name}-file={path}" for name, path in files.items()]
    words += [f"--socket={folder}/munge.socket", f"--log-file={folder}/munge.log"]
    return [path_of("munged"), "--foreground", "--force", *words]


@contextlib.contextmanager
def running_cluster(bench: Bench) -> Iterator[dict[str, str]]:
    """A cluster of this machine alone, as variables by which its programs find it."""
    controller, node = path_of("slurmctld"), path_of("slurmd")
    folder = bench.folder / "cluster"
    for name in ("state", "spool"):
        (folder / name).mkdir(parents=True)
    host = socket.gethostname().split(".")[0]
    text = SLURM.format(
        host=host,
        user=pwd.getpwuid(os.geteuid()).pw_name,
        ports=(free_port(), free_port()),
        folder=folder,
        cpus=len(os.sched_getaffinity(0)),
    )
    (folder / "slurm.conf").write_text(text)
    variables = {"SLURM_CONF": str(folder / "slurm.conf")}
    logs = [folder / f"{name}.log" for name in ("munged", "slurmctld", "slurmd")]

    def is_idle() -> bool:
        return shell(bench, "timeout 5 sinfo -h -o %T", **variables).out.strip() == b"idle"

    with contextlib.ExitStack() as servers:
        servers.enter_context(server(munge_words(folder), logs[0]))
        wait_until((folder / "munge.socket").exists, logs[:1])
        servers.enter_context(server([controller, "-D"], logs[1], **variables))
        servers.enter_context(server([node, "-D", "-N", host], logs[2], **variables))
        wait_until(is_idle, logs)
        yield variables


@dataclass(frozen=True)
class Hosts:
    """An ssh server under three names: the variables by which the scripts find it. At the host
    `none` nothing listens, and the host `silent` takes connections and says nothing."""

    variables: dict[str, str]


SSHD = """Port {port}
ListenAddress 127.0.0.1
HostKey {folder}/host_key
AuthorizedKeysFile {folder}/key.pub
PidFile {folder}/sshd.pid
StrictModes no
UsePAM no
PasswordAuthentication no
MaxStartups 100
SetEnv TMPDIR="{folder}/temporary files"
"""
SSH = """Host one two three
    HostName 127.0.0.1
    HostKeyAlias hosts
    Port {port}
    IdentityFile {folder}/key
    IdentitiesOnly yes
    UserKnownHostsFile {folder}/known
Host none
    HostName 127.0.0.1
    Port {closed}
Host silent
    HostName 127.0.0.1
    Port {silent}
"""


def write_keys(folder: Path) -> None:
    """Keys of a server and of a user, and the server's as one that is known."""
    for name in ("host_key", "key"):
        words = [path_of("ssh-keygen"), "-q", "-t", "ed25519", "-N", "", "-f", folder / name]
        assert run(words, folder).status == 0
    known = (folder / "host_key.pub").read_text().split()
    (folder / "known").write_text(f"hosts {known[0]} {known[1]}\n")


def is_open(port: int) -> bool:
    with contextlib.suppress(OSError):
        socket.create_connection(("127.0.0.1", port), 1).close()
        return True
    return False


def make_folder_of_sshd() -> None:
    """sshd as root wants an empty folder, which a system makes if it runs the server itself. It
    stays there, as another test may use it."""
    if os.geteuid() == 0:
        Path("/run/sshd").mkdir(mode=0o755, exist_ok=True)


@contextlib.contextmanager
def running_hosts(bench: Bench) -> Iterator[Hosts]:
    """A server. No copy of a lane may leave a folder on it, or remove another one."""
    path_of("ssh")
    folder = bench.folder / "hosts"
    # The second has a name that is the beginning of the first.
    temporary, other = folder / "temporary files", folder / "temporary"
    for it in (temporary, other):
        it.mkdir(parents=True)
    write_keys(folder)
    port = free_port()
    (folder / "sshd_config").write_text(SSHD.format(port=port, folder=folder))
    make_folder_of_sshd()
    words = [path_of("sshd"), "-D", "-e", "-f", folder / "sshd_config"]
    logs = [folder / "sshd.log"]
    variables = {"DET_SSH_CONFIG": str(folder / "ssh_config")}
    with socket.create_server(("127.0.0.1", 0)) as silent, server(words, logs[0]):
        ports = {"port": port, "closed": free_port(), "silent": silent.getsockname()[1]}
        (folder / "ssh_config").write_text(SSH.format(folder=folder, **ports))
        wait_until(lambda: is_open(port), logs)
        yield Hosts({**variables, "DET_REMOTE": bench.programs.path("det")})
        # A host whose connection was closed has a moment to see it.
        assert comes_true(lambda: not any(temporary.iterdir()), BEGIN), "a copy left a folder"
        assert other.is_dir(), "a copy removed a folder"
