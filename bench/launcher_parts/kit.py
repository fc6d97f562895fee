"""The toolchain's own program `rt` as a module, for what it does and does not print: the crates, their sources, its order of work."""
import importlib.machinery
import importlib.util
import os
import shutil
import sys


def loaded():
    """The module of the command `rt`; its name there is `rt_program`, so that nothing of it is run."""
    command = os.path.realpath(shutil.which("rt"))
    sys.dont_write_bytecode = True
    loader = importlib.machinery.SourceFileLoader("rt_program", command)
    module = importlib.util.module_from_spec(importlib.util.spec_from_loader("rt_program", loader))
    sys.modules["rt_program"] = module
    loader.exec_module(module)
    return module
