"""Finds the oldest Python of this machine that the tools can be run with, and runs a program with it."""
import glob
import os
import shutil
import subprocess
import sys
import tempfile

from zygos_tools.starting import LEAST

# where pyenv has them
PYENV = os.path.join(os.environ.get("PYENV_ROOT") or os.path.expanduser("~/.pyenv"), "versions")
ASKED = "import sys; print(sys.version_info[1], sys.executable)"


def oldest():
    """Returns the path of the oldest Python that is not too old; that of this one if there is no older one."""
    for minor in range(LEAST[1], sys.version_info[1]):
        name = f"python3.{minor}"
        for path in filter(None, (shutil.which(name), *sorted(glob.glob(os.path.join(PYENV, f"3.{minor}.*", "bin", name))))):
            asked = subprocess.run([path, "-c", ASKED], capture_output=True, text=True, check=False)  # pyenv's may be for no Python
            if not asked.returncode and asked.stdout.startswith(f"{minor} "):
                return asked.stdout.split()[1]
    return sys.executable


def run_with(python, words):
    """Runs a script with a Python, which is also the `python3` of all that it starts. Returns its status."""
    with tempfile.TemporaryDirectory() as folder:
        os.symlink(python, os.path.join(folder, "python3"))
        path = os.pathsep.join([folder, os.environ.get("PATH", os.defpath)])
        return subprocess.run(["python3", *words], env={**os.environ, "PATH": path}, check=False).returncode
