"""Servers that a trial starts for itself: of ssh, and others."""

import os
import shutil
import signal
import socket
import subprocess
import time


def free_port():
    with socket.socket() as it:
        it.bind(("127.0.0.1", 0))
        return it.getsockname()[1]


class Hosts:
    """What a trial has that starts servers of its own."""

    def wants(self, *programs):
        """Skips the trial where a program isn't installed."""
        path = f"{os.environ['PATH']}:/usr/sbin:/sbin"
        found = {it: shutil.which(it, path=path) for it in programs}
        missing = [it for it, place in found.items() if not place]
        if missing:
            self.skipTest(f"not installed: {' '.join(missing)}")
        return found

    def daemon(self, *command, **how):
        """Starts a server of the trial's own in the foreground, which is ended by its own process id."""
        with open(self.room / f"{os.path.basename(str(command[0]))}.out", "ab") as out:
            command = [str(it) for it in command]
            started = subprocess.Popen(command, stdin=subprocess.DEVNULL, stdout=out, stderr=out, **how)
        self.addCleanup(self.end_daemon, started)
        return started

    @staticmethod
    def end_daemon(started):
        started.send_signal(signal.SIGTERM)
        try:
            started.wait(20)
        except subprocess.TimeoutExpired:
            started.kill()
            started.wait()

    def two_hosts(self, found):
        """Two servers of ssh which share the trial's folder, and the words by which GNU parallel runs programs there."""
        hosts = [self.ssh_host(found, name) for name in ("one", "two")]
        (self.room / "ssh").write_text(f'#!/bin/sh\nexec {found["ssh"]} -F {self.room}/ssh_config "$@"\n')
        (self.room / "ssh").chmod(0o755)
        return hosts, ["--ssh", self.room / "ssh", "--sshlogin", "2/one,2/two", "--workdir", self.room, "--env", "ICSERVE"]

    def hosts_used(self):
        """The hosts that GNU parallel has noted in its joblog."""
        return {it.split("\t")[1] for it in (self.room / "jobs.log").read_text().splitlines()[1:]}

    def ssh_host(self, found, name):
        """Starts a server of ssh on 127.0.0.1 with a port and a key of its own."""
        keys = {"host": self.room / f"{name}.key", "user": self.room / "user.key"}
        for key in keys.values():
            if not key.exists():
                subprocess.run([found["ssh-keygen"], "-q", "-t", "ed25519", "-N", "", "-f", key], check=True)
        port, user = free_port(), os.environ.get("USER") or "root"
        (self.room / f"{name}.sshd").write_text(
            f"ListenAddress 127.0.0.1\nPort {port}\nHostKey {keys['host']}\nPidFile {self.room}/{name}.pid\n"
            f"AuthorizedKeysFile {keys['user']}.pub\nStrictModes no\nUsePAM no\nPasswordAuthentication no\nMaxStartups 100\n"
        )
        with open(self.room / "ssh_config", "a") as config:
            config.write(
                f"Host {name}\n HostName 127.0.0.1\n Port {port}\n User {user}\n IdentityFile {keys['user']}\n"
                " IdentitiesOnly yes\n StrictHostKeyChecking no\n UserKnownHostsFile /dev/null\n LogLevel ERROR\n BatchMode yes\n"
            )
        if os.geteuid() == 0:
            os.makedirs("/run/sshd", exist_ok=True)
        server = self.daemon(found["sshd"], "-D", "-e", "-f", self.room / f"{name}.sshd")
        ask = [found["ssh"], "-F", self.room / "ssh_config", name, "true"]
        end = time.monotonic() + 20
        while subprocess.run(ask, capture_output=True).returncode and server.poll() is None and time.monotonic() < end:
            time.sleep(0.05)
        self.equals(f"the server of ssh {name}: {(self.room / 'sshd.out').read_text()[-600:]}", "its status", None, server.poll())
        return server
