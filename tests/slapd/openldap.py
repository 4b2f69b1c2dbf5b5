"""Runs OpenLDAP's tools, which Debian's packages slapd and ldap-utils have."""
import os
import shutil
import subprocess
import sys

from harness.checks import Wrong, shown

# Debian has slapd's tools where only root looks.
TOOLS = os.environ.get("PATH", "") + ":/usr/sbin:/sbin"
SCHEMA = "/etc/ldap/schema"
SECONDS = 60


def demand(script, *tools):
    """Ends the script where a tool is not here."""
    for tool in tools:
        if not shutil.which(tool, path=TOOLS):
            sys.exit(f"{script}: OpenLDAP's {tool} is not here (Debian's packages slapd and ldap-utils have it)")


def install():
    """Installs Debian's packages, which only root may."""
    for words in (["update", "-q"], ["install", "-q", "-y", "slapd", "ldap-utils"]):
        how = {"env": {**os.environ, "DEBIAN_FRONTEND": "noninteractive"}, "stdin": subprocess.DEVNULL, "stdout": subprocess.DEVNULL}
        if subprocess.run(["apt-get", *words], **how).returncode:
            sys.exit("Debian's packages slapd and ldap-utils can't be installed")


def run(command, folder=None, seconds=None):
    """A command that has ended, run in a folder."""
    how = {"capture_output": True, "text": True, "errors": "replace", "stdin": subprocess.DEVNULL}
    return subprocess.run(command, cwd=folder, timeout=seconds, env={**os.environ, "PATH": TOOLS}, **how)


def answers(text):
    """The last word of each line that answers a word of a question."""
    return [line.rsplit(": ", 1)[1] for line in text.splitlines() if line.endswith((": ALLOWED", ": DENIED"))]


def ended_well(command, folder, seconds=SECONDS):
    """What a command of OpenLDAP wrote, which must be content."""
    ended = run(command, folder, seconds)
    if ended.returncode:
        raise Wrong(f"{' '.join(map(str, command))}: {ended.returncode}, {shown(ended.stdout + ended.stderr)}")
    return ended.stdout
