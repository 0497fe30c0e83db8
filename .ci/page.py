"""Uses the page in web/ as a user does: pastes plans, compiles them, calls their adapters with values, and reads what the page shows, which is held
against what the built program prints and tells.
"""

import json
import subprocess
from pathlib import Path

from devtools import Page

EXAMPLES = Path(__file__).resolve().parent.parent / "examples"

# Examples, with values for a call that the page and `factc --call` write alike.
CALLS = {
    "one-u32": ([4294967295], []),
    "greet": (["naïve", ["", "𝄞"], {"none": None}], [{"error": {"too-long": 7}}]),
    "memory64": None,
    "no-adapters": None,
}
# For the first of them: values that are none of its types, with what is told of them.
NO_VALUES = [
    ('["x"]', 'arguments.0: "x" is no u32'),
    ("[4294967296]", "arguments.0: 4294967296 is no u32"),
    ("[1, 2]", "arguments: a list of length 1 is wanted"),
]
REFUSED = (6, 7, 8)  # statuses of inputs of which there is no module


def differs(what, wanted, found):
    return [] if wanted == found else [f"the page: {what}: {found!r:.200} and not {wanted!r:.200}"]


def compile_in(page, text):
    """Pastes a plan and compiles it, and returns what the page tells of that."""
    page.paste("#plan", text)
    page.click("#compile")
    page.wait_for("document.querySelector('#ended').textContent")
    return page.text("#ended")


def faults_of_plan(page, program, name):
    text = (EXAMPLES / f"{name}.json").read_text()
    printed = subprocess.run([program, "--imports"], input=text.encode(), capture_output=True, check=True).stdout.decode()
    module, *imports = printed.splitlines()
    ended = compile_in(page, text)
    shown = page.value("[...document.querySelectorAll('#imports tbody td:last-child')].map(it => it.textContent)")
    wanted = ("the values arrived unchanged", True) if json.loads(text)["adapters"] else ("", False)
    seen = (page.text("#verdict"), page.value("document.querySelector('#call').checkVisibility()"))
    return [
        *differs(f"the end of {name}", f"status 0: a module of {len(module) // 2} bytes", ended.partition(",")[0]),
        *differs(f"the module of {name}", module, page.text("#hex")),
        *differs(f"the imports of {name}", imports, shown),
        *differs(f"the first run of {name}", wanted, seen),
    ]


def faults_of_call(page, program, name, args, results):
    """Calls the adapter of the plan that is there."""
    write = lambda value: json.dumps(value, ensure_ascii=False, separators=(",", ":"))
    given = write({"plan": json.loads((EXAMPLES / f"{name}.json").read_text()), "args": args, "results": results})
    told = subprocess.run([program, "--call", name], input=given.encode(), capture_output=True, check=True).stdout.decode()
    page.paste("#caller textarea", write(args))
    page.paste("#callee textarea", write(results))
    page.click("#run")
    page.wait_for("document.querySelector('#called').textContent")
    return [
        *differs(f"what the callee of {name} gets", write(args), page.text("#callee output")),
        *differs(f"what the caller of {name} gets", write(results), page.text("#caller output")),
        *differs(f"what factc tells of the call of {name}", told.strip(), page.text("#called")),
        *differs(f"the call of {name}", "the values arrived unchanged", page.text("#verdict")),
    ]


def faults_of_no_values(page, text, told):
    page.paste("#caller textarea", text)
    page.click("#run")
    return differs(f"{text} as arguments", ("it did not run", told), (page.text("#verdict"), page.text("#note")))


def uses(page, program, endings):
    """What is wrong with each use of the page."""
    page.click("#own summary")
    for name, call in CALLS.items():
        yield faults_of_plan(page, program, name)
        if call:
            yield faults_of_call(page, program, name, *call)
        if name == next(iter(CALLS)):
            yield from (faults_of_no_values(page, *case) for case in NO_VALUES)
    for status in REFUSED:
        ending = next(it for it in endings if it["status"] == status and not it["words"])
        yield differs(f"the end of {ending['input']:.40}", f"status {status}: {ending['told'].strip()}", compile_in(page, ending["input"]))


def use(browser, profile, url, program, endings):
    """How often the page was used, and what was not as it should be. It throws `Silence` where nothing is heard of the browser."""
    page = Page(browser, profile, url)
    try:
        if not page.wait_for("document.querySelector('#loading')?.hidden"):
            return 1, ["the page: it is not loaded"]
        found = list(uses(page, program, endings))
        sent = [request for request in page.requests if request[0] != "GET" or not request[1].startswith((url, "blob:", "data:"))]
        return len(found), [*(fault for faults in found for fault in faults), *page.errors, *differs("what it sent", [], sent)]
    finally:
        page.close()
