"""What the example needs beside Python: network namespaces, the programs that make and use them, and the program cmh."""
from __future__ import annotations

import os
import shutil
import subprocess
from pathlib import Path

TOP = Path(__file__).resolve().parents[2]
LEFT_OUT = 77  # the exit status where something is missing, by the custom of test programs
PACKAGES = {'ip': 'iproute2', 'ss': 'iproute2', 'unshare': 'util-linux', 'nsenter': 'util-linux', 'setpriv': 'util-linux',
            'stunnel': 'stunnel4', 'openssl': 'openssl', 'pgrep': 'procps'}


def program() -> str | None:
    """cmh: what PROGRAM names, else the proved program of this repository."""
    path = os.environ.get('PROGRAM') or str(TOP / 'crates' / 'cmh' / 'out' / 'cmh')
    return path if os.access(path, os.X_OK) else None


def has_namespaces() -> bool:
    """Whether this process may make network namespaces and what is in them."""
    words = ['unshare', '--net', 'ip', 'link', 'add', 'one', 'type', 'veth', 'peer', 'name', 'other']
    return subprocess.run(words, capture_output=True).returncode == 0


def missing(*files: str) -> list[str]:
    """What is missing, these files among it, and how to get it."""
    lines = [f'{name} (apt-get install {package})' for name, package in PACKAGES.items() if shutil.which(name) is None]
    if program() is None:
        lines.append('the program cmh (cd crates/cmh && rt run < stdin, or PROGRAM=its path)')
    lines += [f'{file} of the kernel' for file in files if not os.access(file, os.R_OK | os.W_OK)]
    if not lines and not has_namespaces():
        lines.append('network namespaces (root, or a user who may make them: unshare --user --map-root-user COMMAND)')
    return lines


def or_leave(*files: str) -> None:
    """Ends the program with `left out` and what is missing, if anything is."""
    if lines := missing(*files):
        print('left out: needs ' + '; '.join(lines))
        raise SystemExit(LEFT_OUT)
