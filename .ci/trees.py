"""Small trees, on which the checks of the gate are tried."""
import subprocess
import tempfile
from pathlib import Path


def judged(check, tree, options=()):
    """The exit status of a check of `.ci` on a tree, and the lines that are said."""
    with tempfile.TemporaryDirectory() as root:
        for file, text in tree.items():
            path = Path(root, file)
            path.parent.mkdir(parents=True, exist_ok=True)
            path.write_text(text)
        run = subprocess.run([Path(__file__).resolve().parent / check, *options, root], stdout=subprocess.PIPE, stderr=subprocess.STDOUT, text=True)
    return run.returncode, run.stdout.splitlines()
