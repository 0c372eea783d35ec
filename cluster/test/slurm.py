"""A real Slurm of two nodes on this host, all of it in one folder, for tests.

It needs root, and the packages slurmctld, slurmd, slurm-client and munge of Debian or a distribution made of it. It listens on free ports of
the loopback alone, uses no service of the host, and ends with the test. A job that is queued again waits until its credential has expired:
two minutes by default, ten seconds here.
"""
import os
import secrets
import shutil
import socket
import subprocess
import time
from pathlib import Path

NEEDED = ("slurmctld", "slurmd", "sbatch", "scontrol", "munged")
NODES = ("n1", "n2")

CONFIGURATION = """ClusterName=densfill
SlurmctldHost={host}(127.0.0.1)
SlurmctldPort={control}
SlurmUser=root
SlurmdUser=root
AuthType=auth/munge
AuthInfo=socket={folder}/munge/socket,cred_expire=10
CredType=cred/munge
SlurmctldPidFile={folder}/slurmctld.pid
SlurmdPidFile={folder}/%n.pid
SlurmdSpoolDir={folder}/spool-%n
StateSaveLocation={folder}/state
SlurmctldLogFile={folder}/slurmctld.log
SlurmdLogFile={folder}/%n.log
SlurmdParameters=config_overrides
ProctrackType=proctrack/linuxproc
TaskPlugin=task/none
JobAcctGatherType=jobacct_gather/none
AccountingStorageType=accounting_storage/none
SelectType=select/cons_tres
SelectTypeParameters=CR_Core
SchedulerParameters=sched_interval=1,batch_sched_delay=0
MpiDefault=none
SwitchType=switch/none
ReturnToService=2
{nodes}
PartitionName=all Nodes=n1,n2 Default=YES MaxTime=INFINITE State=UP
"""


def lacking() -> str:
    """What is needed and isn't here, or nothing."""
    if os.geteuid() != 0:
        return "Slurm's daemons need root"
    path = os.environ["PATH"] + ":/usr/sbin:/sbin"
    names = [name for name in NEEDED if not shutil.which(name, path=path)]
    return f"{', '.join(names)} not found: apt-get install slurmctld slurmd slurm-client munge" if names else ""


def free_ports(count: int) -> list[int]:
    """Ports of the loopback that no one listens on."""
    sockets = [socket.socket() for _ in range(count)]
    for one in sockets:
        one.bind(("127.0.0.1", 0))
    ports = [one.getsockname()[1] for one in sockets]
    for one in sockets:
        one.close()
    return ports


class Slurm:
    """The daemons, from `with Slurm(folder)` to its end."""

    def __init__(self, folder: Path) -> None:
        self.folder = folder
        self.env = os.environ | {"SLURM_CONF": str(folder / "slurm.conf"), "PATH": os.environ["PATH"] + ":/usr/sbin:/sbin"}
        self.daemons: list[subprocess.Popen[bytes]] = []

    def start(self, *words: str, **how: str) -> None:
        with open(self.folder / f"{words[0]}.out", "ab") as out:
            self.daemons.append(subprocess.Popen(words, env=self.env, stdin=subprocess.DEVNULL, stdout=out, stderr=out, **how))

    def start_munge(self) -> None:
        """Munge, which tells the daemons who speaks to them, as its own user, who alone may read its key."""
        folder = self.folder / "munge"
        folder.mkdir()
        key = folder / "key"
        key.write_bytes(secrets.token_bytes(1024))
        key.chmod(0o400)
        for path in (folder, key):
            shutil.chown(path, "munge", "munge")
        paths = [f"--{name}={folder}/{file}" for name, file in (("key-file", "key"), ("socket", "socket"), ("pid-file", "pid"),
                                                                ("log-file", "log"), ("seed-file", "seed"))]
        self.start("munged", "--foreground", "--force", *paths, user="munge", group="munge")

    def configure(self) -> None:
        control, *ports = free_ports(1 + len(NODES))
        host, each = socket.gethostname(), max(1, (os.cpu_count() or 1) // len(NODES))
        nodes = [f"NodeName={name} NodeHostname={host} NodeAddr=127.0.0.1 Port={port} CPUs={each} RealMemory=4000"
                 for name, port in zip(NODES, ports)]
        (self.folder / "slurm.conf").write_text(CONFIGURATION.format(host=host, control=control, folder=self.folder, nodes="\n".join(nodes)))
        for name in ("state", *(f"spool-{node}" for node in NODES)):
            (self.folder / name).mkdir()

    def states(self) -> set[str]:
        return set(self.run("sinfo", "-h", "-N", "-o", "%t").stdout.split())

    def run(self, *words: str) -> subprocess.CompletedProcess[str]:
        return subprocess.run(words, env=self.env, capture_output=True, text=True, check=False)

    def __enter__(self) -> "Slurm":
        self.folder.chmod(0o755)
        try:
            self.start_munge()
            self.configure()
            self.start("slurmctld", "-D")
            for node in NODES:
                self.start("slurmd", "-D", "-N", node)
            for _ in range(120):
                if self.states() == {"idle"}:
                    return self
                time.sleep(0.5)
            raise TimeoutError(f"the nodes are {self.states() or 'not there'}: {(self.folder / 'slurmctld.log').read_text()[-2000:]}")
        except BaseException:
            self.__exit__()
            raise

    def __exit__(self, *_: object) -> None:
        self.run("scancel", "--user=root")
        for daemon in reversed(self.daemons):
            daemon.terminate()
        for daemon in self.daemons:
            try:
                daemon.wait(20)
            except subprocess.TimeoutExpired:
                daemon.kill()
                daemon.wait()
