"""Builds the wheel of the package with the standard library alone, as `pip install ./python` asks
for it, the one of `pip install -e ./python`, which names this folder, and the one of a release,
which has the program too (tools/make_release.sh)."""
import base64
import hashlib
import os
import re
import stat
import tarfile
import time
import tomllib
import zipfile
from pathlib import Path
from typing import Any

HERE = Path(__file__).resolve().parent
_VERSION = re.compile(r'^__version__ = "([^"]+)"$', re.MULTILINE)
_NAMING = Path("dosolve", "__init__.py")
"""The file that has the version."""


def version() -> str:
    """The version of the package; it stands in one place."""
    found = _VERSION.findall((HERE / _NAMING).read_text())
    if len(found) != 1:
        raise ValueError(f"{_NAMING} has {len(found)} lines with a version")
    return str(found[0])


def _project() -> dict[str, Any]:
    project: dict[str, Any] = tomllib.loads((HERE / "pyproject.toml").read_text())["project"]
    return project | {"version": version()}


def _metadata(project: dict[str, Any]) -> str:
    lines = ["Metadata-Version: 2.1", f"Name: {project['name']}", f"Version: {project['version']}",
             f"Summary: {project['description']}", f"License: {project['license']['text']}",
             f"Requires-Python: {project['requires-python']}"]
    for extra, needs in project["optional-dependencies"].items():
        lines.append(f"Provides-Extra: {extra}")
        lines += [f"Requires-Dist: {need}; extra == '{extra}'" for need in needs]
    readme = (HERE / project["readme"]).read_text()
    return "\n".join([*lines, "Description-Content-Type: text/markdown", "", readme])


def _sources() -> list[Path]:
    """The files of the package, those of its folders and of the pages too."""
    package = HERE / "dosolve"
    pages = [file for ending in ("html", "css", "js") for file in package.glob(f"**/*.{ending}")]
    return sorted([package / "py.typed", *package.glob("**/*.py"), *pages])


def _record(name: str, data: bytes) -> str:
    digest = base64.urlsafe_b64encode(hashlib.sha256(data).digest()).rstrip(b"=").decode()
    return f"{name},sha256={digest},{len(data)}\n"


def _moment() -> tuple[int, int, int, int, int, int]:
    """The time of files in archives: that of SOURCE_DATE_EPOCH if it is set, else now."""
    at = time.gmtime(int(os.environ.get("SOURCE_DATE_EPOCH", time.time())))
    return at.tm_year, at.tm_mon, at.tm_mday, at.tm_hour, at.tm_min, at.tm_sec


def _write_wheel(folder: str, files: dict[str, bytes], project: dict[str, Any],
                 tag: str = "py3-none-any", programs: frozenset[str] = frozenset()) -> str:
    """Writes a wheel of these files into a folder, and gives its name. Some are programs."""
    stem = f"{project['name']}-{project['version']}"
    info = f"{stem}.dist-info"
    scripts = "".join(f"{name} = {place}\n" for name, place in project["scripts"].items())
    pure = "false" if programs else "true"
    about = f"Wheel-Version: 1.0\nGenerator: wheel_backend\nRoot-Is-Purelib: {pure}\nTag: {tag}\n"
    files = dict(sorted(files.items())) | {
        f"{info}/METADATA": _metadata(project).encode(),
        f"{info}/WHEEL": about.encode(),
        f"{info}/entry_points.txt": f"[console_scripts]\n{scripts}".encode(),
    }
    records = "".join(_record(name, data) for name, data in files.items())
    files[f"{info}/RECORD"] = (records + f"{info}/RECORD,,\n").encode()
    name, moment = f"{stem}-{tag}.whl", _moment()
    with zipfile.ZipFile(Path(folder, name), "w", zipfile.ZIP_DEFLATED) as wheel:
        for file, data in files.items():
            entry = zipfile.ZipInfo(file, moment)
            entry.compress_type = zipfile.ZIP_DEFLATED
            entry.external_attr = (stat.S_IFREG | (0o755 if file in programs else 0o644)) << 16
            wheel.writestr(entry, data)
    return name


def _package() -> dict[str, bytes]:
    return {str(file.relative_to(HERE)): file.read_bytes() for file in _sources()}


def build_wheel(wheel_directory: str, config_settings: Any = None,
                metadata_directory: str | None = None) -> str:
    """Writes the wheel into a folder, and gives its name."""
    return _write_wheel(wheel_directory, _package(), _project())


def build_editable(wheel_directory: str, config_settings: Any = None,
                   metadata_directory: str | None = None) -> str:
    """Writes a wheel that puts this folder on Python's path, and gives its name."""
    return _write_wheel(wheel_directory, {"dosolve.pth": f"{HERE}\n".encode()}, _project())


def build_release(folder: str, program: str, platform: str, named: str, *papers: str) -> str:
    """Writes a wheel with a program, for a platform, under a version that may say more than the
    package's own, with files that lie beside its metadata; and gives its name.

    The program stands there twice: as the command `dosolve`, which needs no Python, and within
    the package, which so finds its own wherever it is installed.
    """
    project = _project() | {"version": named}
    stem = f"{project['name']}-{named}"
    command, own = f"{stem}.data/scripts/dosolve", "dosolve/bin/dosolve"
    files = _package()
    naming = _VERSION.sub(f'__version__ = "{named}"', files[str(_NAMING)].decode())
    files[str(_NAMING)] = naming.encode()
    files |= dict.fromkeys((command, own), Path(program).read_bytes())
    files |= {f"{stem}.dist-info/{Path(paper).name}": Path(paper).read_bytes() for paper in papers}
    return _write_wheel(folder, files, project, f"py3-none-{platform}", frozenset((command, own)))


def build_sdist(sdist_directory: str, config_settings: Any = None) -> str:
    """Writes the sources into a folder as an archive, and gives its name."""
    project = _project()
    stem = f"{project['name']}-{project['version']}"
    with tarfile.open(Path(sdist_directory, f"{stem}.tar.gz"), "w:gz") as archive:
        for file in [HERE / "pyproject.toml", HERE / "README.md", Path(__file__),
                     *_sources()]:
            archive.add(file, f"{stem}/{file.relative_to(HERE)}")
    return f"{stem}.tar.gz"
