"""Loads a tool, which has no suffix, as a module; and finds programs that a test needs, which not every machine has."""
import importlib.machinery
import importlib.util
import os
import shutil
import sys
import tempfile

PLACE = os.path.join(os.path.dirname(os.path.abspath(__file__)), "..")
sys.dont_write_bytecode = True
sys.path.insert(0, PLACE)


def path_of(name):
    return os.path.join(PLACE, name)


def tool(name):
    loader = importlib.machinery.SourceFileLoader(name, path_of(name))
    module = importlib.util.module_from_spec(importlib.util.spec_from_loader(name, loader))
    loader.exec_module(module)
    return module


def program(test, *names):
    """The first of these programs that is installed. Without one the test is skipped, or fails where SARATOGA_EXTRA is set."""
    found = next(filter(None, map(shutil.which, names)), None)
    if found is None and os.environ.get("SARATOGA_EXTRA"):
        test.fail(f"{names[0]} isn't installed")
    if found is None:
        test.skipTest(f"{names[0]} isn't installed")
    return found


def chromium(test):
    """Chromium without a window, with a profile of the test's own."""
    found = program(test, "chromium", "chromium-browser", "google-chrome")
    profile = tempfile.mkdtemp()
    test.addCleanup(shutil.rmtree, profile, ignore_errors=True)
    return [found, "--headless", "--no-sandbox", "--disable-gpu", f"--user-data-dir={profile}"]
