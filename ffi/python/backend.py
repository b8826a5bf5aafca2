"""Builds the wheel, with the library inside: a backend of PEP 517 that needs nothing but Python. The library is taken from the folder that
SAPYGUENDO_LIB names, or from where pkg-config says that it was installed. The extension module is built if there are a C compiler and the
headers of Python, and else ctypes calls the library."""
import base64
import hashlib
import os
import re
import shutil
import subprocess
import sys
import sysconfig
import tempfile
import zipfile

FFI = os.path.dirname(os.path.dirname(os.path.abspath(__file__)))
MODULE, LIBRARY = f"{FFI}/python/sapyguendo", "libsapyguendo.so.0"
FLAGS = ["-std=c11", "-O2", "-fPIC", "-shared", "-fno-plt", "-Wall", "-Wextra"]


def build_wheel(wheel_directory, config_settings=None, metadata_directory=None):
    about = dict(re.findall(r'^([\w-]+) = "(.*)"$', read(f"{FFI}/python/pyproject.toml").decode(), re.M))
    words = ["pkg-config", "--variable=libdir", "sapyguendo"]
    asked = subprocess.run(words, stdout=subprocess.PIPE, check=False).stdout if shutil.which("pkg-config") else b""
    folder = os.environ.get("SAPYGUENDO_LIB") or asked.decode().strip()
    if not os.path.exists(f"{folder}/{LIBRARY}"):
        raise SystemExit(f"there is no {folder}/{LIBRARY}: set SAPYGUENDO_LIB to its folder (ffi/install makes it)")
    files = {f"sapyguendo/{it}": read(f"{MODULE}/{it}") for it in os.listdir(MODULE) if it.endswith((".py", ".typed"))}
    files[f"sapyguendo/{LIBRARY}"] = read(f"{folder}/{LIBRARY}")
    fast = extension(folder)
    if fast:
        files["sapyguendo/_fast.abi3.so"] = fast
    tag = f"{'cp39-abi3' if fast else 'py3-none'}-{sysconfig.get_platform().replace('-', '_')}"
    name = f"sapyguendo-{about['version']}"
    head = {"Metadata-Version": "2.1", "Name": "sapyguendo", "Version": about["version"], "Summary": about["description"],
            "Requires-Python": about["requires-python"], "License": "Apache-2.0", "License-File": "LICENSE"}
    kind = {"Wheel-Version": "1.0", "Generator": "sapyguendo", "Root-Is-Purelib": "false", "Tag": tag}
    files[f"{name}.dist-info/METADATA"], files[f"{name}.dist-info/WHEEL"] = [
        "".join(f"{it}: {text}\n" for it, text in lines.items()).encode() for lines in (head, kind)]
    files[f"{name}.dist-info/LICENSE"] = read(f"{FFI}/../LICENSE")
    digests = {it: base64.urlsafe_b64encode(hashlib.sha256(text).digest()).rstrip(b"=").decode() for it, text in files.items()}
    record = "".join(f"{it},sha256={digests[it]},{len(files[it])}\n" for it in sorted(files))
    files[f"{name}.dist-info/RECORD"] = f"{record}{name}.dist-info/RECORD,,\n".encode()
    with zipfile.ZipFile(f"{wheel_directory}/{name}-{tag}.whl", "w", zipfile.ZIP_DEFLATED) as wheel:
        for it, text in sorted(files.items()):
            wheel.writestr(zipfile.ZipInfo(it), text, zipfile.ZIP_DEFLATED)
    return f"{name}-{tag}.whl"


def extension(folder):
    """The extension module, if it can be built."""
    compiler, headers = os.environ.get("CC") or shutil.which("cc") or shutil.which("gcc"), sysconfig.get_paths()["include"]
    if not compiler or not os.path.exists(f"{headers}/Python.h"):
        return print("sapyguendo: without a C compiler and Python.h, ctypes calls the library", file=sys.stderr)
    with tempfile.TemporaryDirectory() as room:
        words = [compiler, *FLAGS, f"-I{headers}", f"-I{FFI}", f"{MODULE}/fast.c", f"{folder}/libsapyguendo.a", "-o", f"{room}/fast"]
        return None if subprocess.run(words, check=False).returncode else read(f"{room}/fast")


def read(file):
    with open(file, "rb") as it:
        return it.read()
