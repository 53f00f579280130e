"""The library that refuses growths of memory, which programs are run with."""
import os
import shutil
import subprocess
import sys

SOURCE = f"{os.path.dirname(os.path.dirname(os.path.realpath(__file__)))}/bench/refuse.c"


def refuser(folder):
    """The library that refuses growths, or None where there is no C compiler."""
    library = f"{folder}/refuse.so"
    words = ["cc", "-shared", "-fPIC", "-o", library, SOURCE, "-ldl"]
    if shutil.which("cc") and subprocess.run(words, check=False).returncode == 0:
        return library
    print("tests: there is no C compiler cc that works, so no growth of memory is refused", file=sys.stderr)
    return None
