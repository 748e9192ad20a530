"""Each test of a page is worth something: over a copy of the scripts with a mistake of its own to find it fails."""
import inspect
import shutil

import pytest
import report_tests
import watch_tests
from checks import replaced
from selenium.common.exceptions import TimeoutException

MODULES = {"watch": watch_tests, "report": report_tests}
MISTAKES = [pytest.param(mistake, id=f"{name}: {words}") for name, module in MODULES.items()
            for words, mistake in module.MISTAKES.items()]


@pytest.mark.parametrize("mistake", MISTAKES)
def check_mistake(mistake, tools, folder, request):
    copy = shutil.copytree(tools, folder / "copy/tools", ignore=shutil.ignore_patterns("__pycache__"))
    file = copy / mistake.file
    file.write_text(replaced(mistake.old, mistake.new)(file.read_text()))
    (folder / "files").mkdir()
    given = {"tools": copy, "folder": folder / "files", "pictures": folder / "files"}
    names = inspect.signature(mistake.test).parameters
    # By what the test says, or by what it waits for; else the mistake broke the page or the test itself.
    with pytest.raises((AssertionError, TimeoutException)):
        mistake.test(**{it: given.get(it) or request.getfixturevalue(it) for it in names})
