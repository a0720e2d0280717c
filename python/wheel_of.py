"""Makes a wheel of the package: a zip file, as the packaging standards (PEP 427, PEP 517) have it. It needs nothing but Python."""
from __future__ import annotations
import base64, hashlib, os, re, tarfile, zipfile

HERE = os.path.dirname(os.path.abspath(__file__))
PACKAGE = "tetherearly"


def bytes_in(name: str) -> bytes:
    with open(os.path.join(HERE, name), "rb") as file:
        return file.read()


def text_in(name: str) -> str:
    return bytes_in(name).decode()


def sources() -> list[str]:
    """The files of the package."""
    return sorted(f"{PACKAGE}/{it}" for it in os.listdir(os.path.join(HERE, PACKAGE)) if it.endswith((".py", ".typed")))


def field(name: str) -> str:
    """A field of the project, which pyproject.toml has in one line."""
    found = re.search(rf'^{name} = "([^"]*)"$', text_in("pyproject.toml"), re.M)
    assert found, name
    return found[1]


def metadata() -> str:
    head = {"Metadata-Version": "2.1", "Name": field("name"), "Version": field("version"), "Summary": field("description"),
            "Requires-Python": field("requires-python"), "Description-Content-Type": "text/markdown"}
    return "".join(f"{key}: {value}\n" for key, value in head.items()) + "\n" + text_in("README.md")


def row(name: str, content: bytes) -> str:
    """What the list of the wheel's files says of one."""
    digest = base64.urlsafe_b64encode(hashlib.sha256(content).digest()).rstrip(b"=").decode()
    return f"{name},sha256={digest},{len(content)}\n"


def build_wheel(wheel_directory: str, config_settings: object = None, metadata_directory: object = None) -> str:
    made = f"{PACKAGE}-{field('version')}"
    info = f"{made}.dist-info"
    contents = {name: bytes_in(name) for name in sources()}
    contents[f"{info}/METADATA"] = metadata().encode()
    contents[f"{info}/WHEEL"] = b"Wheel-Version: 1.0\nGenerator: wheel_of\nRoot-Is-Purelib: true\nTag: py3-none-any\n"
    rows = "".join(row(*it) for it in contents.items()) + f"{info}/RECORD,,\n"
    name = f"{made}-py3-none-any.whl"
    with zipfile.ZipFile(os.path.join(wheel_directory, name), "w", zipfile.ZIP_DEFLATED) as wheel:
        for it, content in {**contents, f"{info}/RECORD": rows.encode()}.items():
            wheel.writestr(it, content)
    return name


def build_sdist(sdist_directory: str, config_settings: object = None) -> str:
    made = f"{PACKAGE}-{field('version')}"
    name = f"{made}.tar.gz"
    with tarfile.open(os.path.join(sdist_directory, name), "w:gz") as archive:
        for it in ("pyproject.toml", "README.md", "wheel_of.py", *sources()):
            archive.add(os.path.join(HERE, it), f"{made}/{it}")
    return name
