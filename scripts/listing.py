"""The files of the repository, for the scripts beside this one. Python starts in the repository's root."""
import os
import pathlib
import subprocess
import sys

os.chdir(pathlib.Path(__file__).resolve().parent.parent)


def listed(script):
    """The files that git knows and those that it would add; ends the script where git fails."""
    command = ["git", "ls-files", "-z", "--cached", "--others", "--exclude-standard"]
    try:
        ended = subprocess.run(command, stdout=subprocess.PIPE, stderr=subprocess.PIPE)
    except OSError as why:
        sys.exit("%s: git could not be started: %s" % (script, why))
    if ended.returncode != 0:
        sys.exit("%s: git ls-files failed: %s" % (script, ended.stderr.decode(errors="replace").strip()))
    files = [name for name in ended.stdout.decode().split("\0") if name and os.path.isfile(name)]
    return files or sys.exit("%s: git lists no file" % script)


def text_of(path):
    return pathlib.Path(path).read_text(encoding="utf-8")
