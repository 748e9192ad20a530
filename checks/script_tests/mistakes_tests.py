"""Each test is worth something: over a copy of the scripts with a mistake that is its own to find, it fails."""
import inspect
import os
import shutil

import convert_tests
import corpus_tests
import journal_tests
import own_tests
import plot_tests
import pytest
import reference_tests
import requests_tests
import sample_tests
import survey_tests
import traces_tests
from checks import replaced

MODULES = [("survey", survey_tests), ("survey", traces_tests), ("plot", plot_tests), ("corpus", corpus_tests),
           ("sample", sample_tests), ("convert", convert_tests), ("journal", journal_tests),
           ("reference", reference_tests), ("own", own_tests), ("requests", requests_tests)]


@pytest.mark.parametrize("script, mistake", [pytest.param(script, mistake, id=f"{script}: {words}")
                                             for script, module in MODULES for words, mistake in module.MISTAKES.items()])
def check_mistake(script, mistake, tools, folder, program):
    copy = shutil.copytree(tools.parent, folder / "copy", copy_function=os.link) / "tools"
    file = copy / mistake.file
    text = replaced(mistake.old, mistake.new)(file.read_text())
    file.unlink()
    file.write_text(text)
    (folder / "files").mkdir()
    given = {**{it: copy / it for it in dict(MODULES)}, "folder": folder / "files", "program": program}
    with pytest.raises(AssertionError):
        mistake.test(**{name: given[name] for name in inspect.signature(mistake.test).parameters})
