"""The backend by which pip installs this folder: it makes a wheel with the standard library alone, so nothing is downloaded."""
import base64
import hashlib
import pathlib
import re
import zipfile

HERE = pathlib.Path(__file__).resolve().parent


def build_wheel(folder, config_settings=None, metadata_directory=None):
    project = (HERE / "pyproject.toml").read_text()
    said = dict(re.findall(r'^([\w-]+) = "(.*)"$', project, re.M))
    extras = re.findall(r'^(\w+) = \["(.*)"\]$', project.split("[project.optional-dependencies]")[1], re.M)
    name = f"{said['name']}-{said['version']}"
    lines = ["Metadata-Version: 2.1", f"Name: {said['name']}", f"Version: {said['version']}", f"Summary: {said['description']}"]
    lines += [f"Requires-Python: {said['requires-python']}"]
    lines += [line for extra, needs in extras for line in (f"Provides-Extra: {extra}", f"Requires-Dist: {needs} ; extra == '{extra}'")]
    files = {str(path.relative_to(HERE)): path.read_bytes() for path in sorted(HERE.glob("tapirvm/*")) if path.suffix in (".py", ".typed")}
    files["tapirvm_dask.py"] = (HERE / "tapirvm_dask.py").read_bytes()
    files[f"{name}.dist-info/METADATA"] = ("\n".join(lines) + "\n").encode()
    files[f"{name}.dist-info/WHEEL"] = b"Wheel-Version: 1.0\nGenerator: wheel_of_package\nRoot-Is-Purelib: true\nTag: py3-none-any\n"
    sums = {path: base64.urlsafe_b64encode(hashlib.sha256(text).digest()).rstrip(b"=").decode() for path, text in files.items()}
    record = "".join(f"{path},sha256={sum_of},{len(files[path])}\n" for path, sum_of in sums.items())
    wheel = f"{name}-py3-none-any.whl"
    with zipfile.ZipFile(pathlib.Path(folder) / wheel, "w", zipfile.ZIP_DEFLATED) as archive:
        for path, text in {**files, f"{name}.dist-info/RECORD": f"{record}{name}.dist-info/RECORD,,\n".encode()}.items():
            archive.writestr(path, text)
    return wheel
