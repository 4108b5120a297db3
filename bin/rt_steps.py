"""The steps of `rt ci` as a module, for bin/prove and bin/kept, which order them otherwise or look at what they kept. The verdicts
are rt's own: nothing here proves, refuses or keeps anything by itself. What is asked again and again of a crate (which stand below
it, how many lines it has) is asked once."""
import importlib.machinery
import importlib.util
import os
import shutil
import sys

TOP = os.path.dirname(os.path.dirname(os.path.realpath(__file__)))


def text_of(path):
    with open(path, encoding="utf-8") as it:
        return it.read()


def once(of, name):
    """Makes a method answer from what it answered before with the same words."""
    plain, place = getattr(of, name), f"_once_{name}"

    def asked(self, *words):
        known = self.__dict__.setdefault(place, {})
        if words not in known:
            known[words] = plain(self, *words)
        return list(known[words]) if isinstance(known[words], list) else known[words]

    setattr(of, name, asked)


def module(calls):
    """`rt` as a module, with these calls of its crates answered once."""
    path = shutil.which("rt")
    if not path:
        sys.exit("the Rattle toolchain's `rt` isn't on the path")
    sys.dont_write_bytecode = True
    loader = importlib.machinery.SourceFileLoader("rt_main", os.path.realpath(path))
    rt = importlib.util.module_from_spec(importlib.util.spec_from_loader("rt_main", loader))
    sys.modules["rt_main"] = rt
    loader.exec_module(rt)
    for it in calls:
        once(rt.rtlib.Crate, it)
    return rt
