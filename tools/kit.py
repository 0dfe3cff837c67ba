"""What the tools here take from the Rattle kit, and what the kit does not describe: its module that knows the commands of a crate,
and the programs of its toolchain, which are one file that goes by the name it is called by."""
import importlib.machinery
import importlib.util
import os
import shutil
import subprocess
import sys

TOP = os.path.dirname(os.path.dirname(os.path.abspath(__file__)))


def path_of_module():
    """Where `rtlib.py` is: beside `rt`, or, where a script of that name stands before the kit's, by the page that `rt doc` names."""
    rt = shutil.which("rt")
    if not rt:
        return None
    beside = os.path.join(os.path.dirname(os.path.realpath(rt)), "rtlib.py")
    if os.path.exists(beside):
        return beside
    said = subprocess.run([rt, "doc"], stdin=subprocess.DEVNULL, capture_output=True, text=True)
    named = os.path.join(os.path.dirname(said.stdout.strip()), "bin", "rtlib.py")
    return named if os.path.exists(named) else None


def module_of_kit():
    """The kit's module `rtlib`. None: it is not found."""
    path = path_of_module()
    if path is None:
        return None
    loader = importlib.machinery.SourceFileLoader("rtlib", path)
    module = importlib.util.module_from_spec(importlib.util.spec_from_loader("rtlib", loader))
    sys.modules["rtlib"] = module
    loader.exec_module(module)
    return module


def crate_of(module, name):
    """The crate of that name, as the kit sees it. Goes to its folder, where the kit's commands are run."""
    folder = os.path.join(TOP, "crates", name)
    os.chdir(folder)
    return module.Crate(folder, module.root_above(folder) or folder, {})


def memory_calls(module):
    """The archive of the kit's calls of the system's memory, which each program and each static library wants."""
    return os.path.join(module.KIT, "c", "liblibc_c.a")


def system_library(module, name):
    """A library of the system, as the kit links programs with it."""
    return os.path.join(module.KIT, "toolchain", "lib", name)


def run_llvm(module, name, *words):
    """Runs a program of the kit's toolchain: what came of it, with what it said on standard error."""
    program = os.path.join(module.KIT, "toolchain", "bin", "clang")
    return subprocess.run([name, *words], executable=program, stdin=subprocess.DEVNULL, capture_output=True, text=True)
