"""One machine that plays several nodes of Slurm, on loopback, with a munge of its own."""
from __future__ import annotations

import os
import pathlib
import shutil
import signal
import socket
import subprocess
import tempfile
import time
from collections.abc import Callable

import pytest

from support.program import PATIENCE, needs
from support.server import free_port

NODES = 3

# A lost node is noticed after SlurmdTimeout, and its job begins again after cred_expire, which is else 120 seconds.
CONFIGURATION = """ClusterName=tests
SlurmctldHost={host}(127.0.0.1)
AuthType=auth/munge
AuthInfo=socket={folder}/munge/socket,cred_expire=5
CredType=cred/munge
SlurmUser=root
SlurmdUser=root
SlurmctldPort={port}
ReturnToService=2
SlurmctldPidFile={folder}/slurmctld.pid
SlurmdPidFile={folder}/slurmd.%n.pid
SlurmdSpoolDir={folder}/spool.%n
StateSaveLocation={folder}/state
SlurmctldLogFile={folder}/slurmctld.log
SlurmdLogFile={folder}/slurmd.%n.log
ProctrackType=proctrack/linuxproc
TaskPlugin=task/none
SwitchType=switch/none
JobAcctGatherType=jobacct_gather/none
AccountingStorageType=accounting_storage/none
SelectType=select/linear
SchedulerType=sched/builtin
SchedulerParameters=sched_interval=1,batch_sched_delay=0,sched_min_interval=0
MpiDefault=none
SlurmdTimeout=2
MessageTimeout=2
TCPTimeout=1
KillWait=1
MinJobAge=600
{nodes}
PartitionName=all Nodes=ALL Default=YES MaxTime=INFINITE State=UP
"""


class Slurm:
    """A controller and its nodes, whose jobs run in this machine. `environment` lets a command find them."""

    def __init__(self) -> None:
        needs("slurmctld", "slurmd", "munged", "sbatch", "setpriv")
        if os.geteuid() != 0:
            pytest.skip("only root plays the nodes of Slurm")
        # The user of munge has to reach it, and may not reach the folders of pytest.
        self.folder = pathlib.Path(tempfile.mkdtemp(prefix="muni-slurm-"))
        self.folder.chmod(0o755)
        self.configuration = self.folder / "slurm.conf"
        self.environment = {"SLURM_CONF": str(self.configuration)}
        self.processes: list[subprocess.Popen[bytes]] = []

    def __enter__(self) -> Slurm:
        try:
            self._start_munge()
            host = socket.gethostname().partition(".")[0]
            nodes = "\n".join(f"NodeName=n{node} NodeHostname={host} NodeAddr=127.0.0.1 Port={free_port()} CPUs=1"
                              for node in range(NODES))
            self.configuration.write_text(CONFIGURATION.format(host=host, folder=self.folder, port=free_port(),
                                                               nodes=nodes))
            (self.folder / "state").mkdir()
            self._start("slurmctld", "-D", "-f", self.configuration)
            for node in range(NODES):
                (self.folder / f"spool.n{node}").mkdir()
                self._start("slurmd", "-D", "-N", f"n{node}", "-f", self.configuration)
            self._wait(lambda: self.said("sinfo", "-h", "-o", "%t %D") == f"idle {NODES}\n")
        except BaseException:
            self.__exit__()
            raise
        return self

    def _start_munge(self) -> None:
        munge = self.folder / "munge"
        munge.mkdir()
        (munge / "key").write_bytes(os.urandom(128))
        (munge / "key").chmod(0o400)
        for path in (munge, munge / "key"):
            shutil.chown(path, "munge", "munge")
        # Munge wants folders that nobody else may write.
        munge.chmod(0o755)
        self._start("setpriv", "--reuid=munge", "--regid=munge", "--clear-groups", "munged", "--foreground", "--force",
                    f"--key-file={munge}/key", f"--socket={munge}/socket", f"--pid-file={munge}/pid",
                    f"--log-file={munge}/log", f"--seed-file={munge}/seed")
        self._wait((munge / "socket").exists)

    def _start(self, *words: str | pathlib.Path) -> None:
        name = str(words[0])
        with open(self.folder / f"said.{name}", "ab") as said:
            self.processes.append(subprocess.Popen(words, stdin=subprocess.DEVNULL, stdout=said, stderr=said,
                                                   env=os.environ | self.environment))

    def _wait(self, is_so: Callable[[], bool]) -> None:
        deadline = time.monotonic() + PATIENCE
        while not is_so():
            assert time.monotonic() < deadline and not any(each.poll() for each in self.processes), self.told()
            time.sleep(0.05)

    def told(self) -> str:
        """What the parts of Slurm wrote last."""
        return "\n".join(f"{each.name}: {each.read_text(errors='replace')[-2000:]}"
                         for each in [*self.folder.glob("said.*"), *self.folder.glob("*.log")])

    def said(self, *words: str) -> str:
        return subprocess.run(words, env=os.environ | self.environment, capture_output=True, text=True, timeout=PATIENCE).stdout

    def restarts(self) -> int:
        """How often a job was queued again, all jobs taken together."""
        return sum(int(word.partition("=")[2]) for word in self.said("scontrol", "-d", "show", "jobs").split()
                   if word.startswith("Restarts="))

    def lose(self, node: int) -> None:
        """A node is gone with all that runs there, and nothing is told to the controller."""
        daemon = self.processes[2 + node].pid
        name = f"SLURMD_NODENAME=n{node}".encode()
        lost = {daemon}
        for process in pathlib.Path("/proc").glob("[0-9]*"):
            try:
                environment = (process / "environ").read_bytes().split(b"\0")
                if name in environment and str(self.configuration).encode() in b"".join(environment):
                    # The job, and the step daemon above it.
                    lost |= {int(process.name)} | {int((process / "stat").read_text().split()[3])}
            except (OSError, ValueError):
                continue
        own = {os.getpid(), 1}
        for process in lost - own:
            try:
                os.kill(process, signal.SIGKILL)
            except ProcessLookupError:
                pass

    def __exit__(self, *_: object) -> None:
        for process in reversed(self.processes):
            process.terminate()
        for process in reversed(self.processes):
            try:
                process.wait(5)
            except subprocess.TimeoutExpired:
                process.kill()
                process.wait()
        shutil.rmtree(self.folder, ignore_errors=True)
