"""What kind of machine this is: nothing that tells one of the kind from another."""

import os
import platform
import subprocess


def first_line(*command):
    """What a compiler says of itself."""
    return subprocess.run(command, check=True, capture_output=True, text=True).stdout.splitlines()[0]


def system():
    """The system's name, or what Python takes it for."""
    try:
        return platform.freedesktop_os_release()["PRETTY_NAME"]
    except OSError:
        return platform.system()


def kind():
    """The architecture, the cores, the system and the compilers, as rows of a table."""
    rust = " ".join(first_line("rustc", "--version").split()[:2])
    return [
        ("architecture", platform.machine()),
        ("cores", str(os.cpu_count())),
        ("system", system()),
        ("the crate and the driver", f"{rust}, `cargo build --release`"),
        ("ours", f"{first_line('rt', 'version')}, its clang at -O3"),
        ("plain C", f"{first_line(os.environ.get('CC', 'cc'), '--version')}, -O2"),
    ]
