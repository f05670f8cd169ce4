"""A tool of this folder as a module: the tools have no `.py` at the end, so `import` does not find them.

Whoever imports this sets `sys.dont_write_bytecode` first: so neither this nor the tool leaves a file in the folder.
"""
import importlib.machinery
import importlib.util
import pathlib
import types

TOOLS = pathlib.Path(__file__).resolve().parent


def loaded(name: str) -> types.ModuleType:
    """The tool of this name. Its own `main` is not run."""
    loader = importlib.machinery.SourceFileLoader(name.replace("-", "_"), str(TOOLS / name))
    module = importlib.util.module_from_spec(importlib.util.spec_from_loader(loader.name, loader))
    loader.exec_module(module)
    return module
