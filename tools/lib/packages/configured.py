"""What the package's script does to the service when a package is installed, without a systemd that runs."""
import os
import shutil
import subprocess
from typing import NamedTuple

from lib.files import bytes_of
from lib.places import TOP

SCRIPT = f"{TOP}/packaging/debian/postinst"
RUNS = "/run/systemd/system"  # the folder by which a script sees that systemd runs
POLICY = "/usr/sbin/policy-rc.d"  # what forbids starts in a container
# systemctl over a unit that is enabled, and active if the file `active` is there: keeps its words, and which of them
# start the service.
SYSTEMCTL = """\
#!/bin/sh
echo "$*" >> "{room}/calls"
case " $* " in
    *' is-enabled '*) echo enabled ;;
    *' is-active '*) [ -e "{room}/active" ] || exit 3 ;;
    *' try-restart '*) [ ! -e "{room}/active" ] || echo started >> "{room}/starts" ;;
    *'start '*) echo started >> "{room}/starts" ;;
esac
"""


class Configured(NamedTuple):
    status: int
    is_reloaded: bool  # whether systemd reads the units anew
    starts: int


def program(path: str, text: str) -> None:
    with open(path, "w", encoding="utf-8") as file:
        file.write(text)
    os.chmod(path, 0o755)


def lines_of(path: str) -> list[str]:
    return bytes_of(path).decode().splitlines() if os.path.exists(path) else []


def configured(room: str, before: str, is_active: bool) -> Configured:
    """Runs the script as dpkg does after an older version was there, or none if `before` is empty. In the folder it has
    a systemctl of its own, the program of Debian that asks systemctl, and nothing that changes this computer."""
    os.makedirs(f"{room}/bin")
    os.makedirs(f"{room}/runs")
    program(f"{room}/bin/systemctl", SYSTEMCTL.format(room=room))
    for name in ("systemd-sysusers", "systemd-tmpfiles"):
        program(f"{room}/bin/{name}", "#!/bin/sh\n")
    invoke = bytes_of(shutil.which("deb-systemd-invoke")).decode()
    program(f"{room}/bin/deb-systemd-invoke", invoke.replace(POLICY, f"{room}/none"))
    program(f"{room}/postinst", bytes_of(SCRIPT).decode().replace(RUNS, f"{room}/runs"))
    if is_active:
        program(f"{room}/active", "")
    environment = {key: value for key, value in os.environ.items() if key != "DPKG_ROOT"}
    environment["PATH"] = f"{room}/bin:{os.environ.get('PATH', os.defpath)}"
    how = {"stdin": subprocess.DEVNULL, "capture_output": True, "env": environment}
    ran = subprocess.run([f"{room}/postinst", "configure", before], **how)
    calls, starts = lines_of(f"{room}/calls"), lines_of(f"{room}/starts")
    return Configured(ran.returncode, any("daemon-reload" in line for line in calls), len(starts))
