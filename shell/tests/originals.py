"""The original source of a package of Debian, fetched by apt from the mirror that it is configured with, and kept under out/."""
from __future__ import annotations

import hashlib
import os
import shutil
import subprocess
import tempfile
from typing import NamedTuple
from urllib.parse import unquote

from . import TOP

# What apt has for the fetching of a single file, and how long it may take.
HELPER = "/usr/lib/apt/apt-helper"
SECONDS = 20
_IMPATIENT = ("-o", "Acquire::Retries=0", "-o", "Acquire::http::Timeout=5", "-o", "Acquire::https::Timeout=5")


class NotHad(Exception):
    """Why a source cannot be had here."""


class Original(NamedTuple):
    """The source of a package as its authors published it: the name and the version of the package, and the hash of the file."""

    package: str
    version: str
    sha256: str

    @property
    def name(self) -> str:
        return f"{self.package}_{self.version}.orig.tar.gz"

    def path(self) -> str:
        """The file, which is fetched if it is not there yet; raises why it cannot be had."""
        kept = f"{TOP}/out/{self.name}"
        if not self._is(kept):
            os.makedirs(os.path.dirname(kept), exist_ok=True)
            with tempfile.TemporaryDirectory(dir=os.path.dirname(kept)) as folder:
                fetched = os.path.join(folder, self.name)
                _output(HELPER, *_IMPATIENT, "download-file", f"{self._pool()}{self.name}", fetched, f"SHA256:{self.sha256}")
                if not self._is(fetched):
                    raise NotHad(f"what the mirror has as {self.name} is another file")
                os.replace(fetched, kept)
        return kept

    def _is(self, path: str) -> bool:
        """Whether there is this very file."""
        try:
            with open(path, "rb") as it:
                return hashlib.sha256(it.read()).hexdigest() == self.sha256
        except FileNotFoundError:
            return False

    def _pool(self) -> str:
        """The folder of the mirror that has the package, and so its source."""
        if not (shutil.which("apt-get") and os.access(HELPER, os.X_OK)):
            raise NotHad("there is no apt here")
        words = _output("apt-get", *_IMPATIENT, "--print-uris", "download", self.package).split()
        uris = [unquote(word.strip("'")) for word in words if word.startswith("'") and word.endswith(".deb'")]
        if not uris:
            raise NotHad(f"apt knows no mirror that has {self.package}")
        folder, slash, name = uris[0].rpartition("/")
        if name.split("_")[1].partition("-")[0] != self.version:
            raise NotHad(f"the mirror has {name}, and not version {self.version}")
        return folder + slash


def _output(*words: str) -> str:
    """What a command of apt prints; raises why it failed."""
    try:
        ran = subprocess.run(words, stdin=subprocess.DEVNULL, capture_output=True, text=True, errors="replace", timeout=SECONDS)
    except subprocess.TimeoutExpired as why:
        raise NotHad(f"{os.path.basename(words[0])} took more than {SECONDS} seconds") from why
    if ran.returncode:
        said = [line for line in ran.stderr.splitlines() if line.startswith("E: ")] or [f"status {ran.returncode}"]
        raise NotHad(f"{os.path.basename(words[0])}: {said[0]}")
    return ran.stdout
