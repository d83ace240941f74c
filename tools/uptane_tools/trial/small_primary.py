"""The modules of the small Primary of `examples/primary`, which stands alone and is no part of
this package.
"""
import importlib.util
import sys
from types import ModuleType

from uptane_tools import TOP

FOLDER = TOP / "examples" / "primary"


def modules() -> tuple[ModuleType, ModuleType, ModuleType]:
    """Its envelopes, its verification, and its rounds; each finds the ones before by name."""
    for name in ("ed25519", "envelopes", "forms", "verify", "primary"):
        if name not in sys.modules:
            spec = importlib.util.spec_from_file_location(name, FOLDER / f"{name}.py")
            assert spec is not None and spec.loader is not None
            sys.modules[name] = importlib.util.module_from_spec(spec)
            spec.loader.exec_module(sys.modules[name])
    return sys.modules["envelopes"], sys.modules["verify"], sys.modules["primary"]
