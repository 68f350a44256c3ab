"""The folder that is checked. Its file .preprocessed lists what was made there, each with its checksum, as
tools/preprocess.sh writes and reads it: nothing of another origin is removed, and nothing that was changed since. No
settings are overwritten but those that were put there and weren't changed."""

import subprocess
from pathlib import Path
from typing import Dict, List

LIST = ".preprocessed"


def checksum(path: Path) -> str:
    with path.open("rb") as file:
        return subprocess.run(["cksum"], stdin=file, capture_output=True, check=True).stdout.decode().strip()


def made_before(out: Path) -> Dict[str, str]:
    """What an earlier run made, and its checksum then."""
    if not (out / LIST).is_file():
        return {}
    rows = [line.rsplit(" ", 1) for line in (out / LIST).read_text().split("\n") if line]
    return {name: told for told, name in rows if "/" not in name}


def write(out: Path, made: Dict[str, bytes]) -> List[str]:
    """Puts these files there, in place of what an earlier run made. The answer names what stays as it is: texts that
    weren't made here or were changed since, and settings that this run would have overwritten."""
    out.mkdir(parents=True, exist_ok=True)
    before, stays = made_before(out), []
    for path in sorted(out.iterdir()):
        if path.suffix != ".i" and path.name != "rtcheck.toml":
            continue
        if before.get(path.name) == checksum(path):
            path.unlink()
        elif path.name not in made or (path.name == "rtcheck.toml" and path.read_bytes() != made[path.name]):
            stays.append(path.name)
    rows = []
    for name, text in sorted(made.items()):
        if name not in stays:
            (out / name).write_bytes(text)
            rows.append(f"{checksum(out / name)} {name}\n")
    (out / LIST).write_text("".join(rows))
    return stays
