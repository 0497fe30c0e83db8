"""Serves web/ with the modules of the examples and of drawn plans, lets a browser or a node run them, and tells what it reports. Where the
toolchain's `rt` is on the path the engine also runs the program itself, which is to make the same modules and to end in the same way; and in a
browser the page is used as a user does (`page.py`).

Ends with status 1 where a run is not as it should be, where the browser does not take a module, or where no engine reports. A browser of which
nothing is heard for two minutes is given up, and the next engine takes its place.
"""

import http.server
import json
import queue
import shutil
import subprocess
import sys
import tempfile
import threading
from pathlib import Path

WEB = Path(__file__).resolve().parent.parent / "web"
MOST_FAULTS = 20

sys.dont_write_bytecode = True
sys.path[:0] = [str(WEB), str(WEB / "compiler")]
import devtools  # noqa: E402
import endings  # noqa: E402
import modules  # noqa: E402
import page  # noqa: E402


def server(room):
    """A server of web/, in which `out/` is the room, and a queue of what is posted to it: None for progress, and at last the report."""
    posted = queue.Queue()

    class Handler(http.server.SimpleHTTPRequestHandler):
        def translate_path(self, path):
            plain = path.partition("?")[0]
            return str(Path(room) / plain[5:]) if plain.startswith("/out/") else super().translate_path(path)

        def do_POST(self):
            body = self.rfile.read(int(self.headers["Content-Length"]))
            self.send_response(204)
            self.end_headers()
            posted.put(json.loads(body) if self.path == "/report" else None)

        def log_message(self, *_):
            pass

    handler = lambda *words: Handler(*words, directory=str(WEB))
    serving = http.server.ThreadingHTTPServer(("127.0.0.1", 0), handler)
    threading.Thread(target=serving.serve_forever, daemon=True).start()
    return serving, posted


def url_of(serving):
    return f"http://127.0.0.1:{serving.server_address[1]}/"


def by_browser(browser, room, seed):
    """The report of the page check.html, or none."""
    serving, posted = server(room)
    url = f"{url_of(serving)}check.html?report&seed={seed}"
    running = devtools.start(browser, f"{room}/profile", "--remote-debugging-port=0", url)
    try:
        while (report := posted.get(timeout=devtools.PATIENCE)) is None:
            pass
        return report
    except queue.Empty:
        return None
    finally:
        devtools.stop(running)
        serving.shutdown()


def use_page(browser, room, program, report):
    """Adds to a report what is wrong where the page is used."""
    serving, _ = server(room)
    try:
        ends = json.loads(Path(room, "endings.json").read_text())
        uses, faults = page.use(browser, f"{room}/profile-of-user", url_of(serving), program, ends)
        report["lines"].append(f"uses of the page: {uses} runs, {len(faults)} of them not as they should be")
        report["faults"] += faults
    except devtools.Silence:
        report["lines"].append("uses of the page: given up, since nothing is heard of the browser")
    finally:
        serving.shutdown()


def flags_of(node):
    """Older ones have memories of 64 bits only where they are asked for, and newer ones need not know the word."""
    flags = ["--experimental-wasm-memory64"]
    return flags if subprocess.run([node, *flags, "-e", "0"], capture_output=True).returncode == 0 else []


def by_node(node, room, seed):
    words = [node, *flags_of(node), WEB / "check-node.js", room, seed]
    done = subprocess.run(words, capture_output=True, text=True, timeout=600)
    if done.returncode != 0:
        print(f"browser: {done.stderr[:2000]}", file=sys.stderr)
        return None
    return json.loads(done.stdout)


def build_program(program, room):
    """The program for the page, and how the built one ends. Says whether it is as it should be: there, or without a toolchain that makes it."""
    if not shutil.which("rt"):
        print("browser: there is no rt, and so no program in the page", file=sys.stderr)
        return True
    if subprocess.run([WEB / "compiler" / "build"], stdout=sys.stderr).returncode:
        return False
    shutil.copy(WEB / "out" / "factc.wasm", room)
    endings.write(program, f"{room}/endings.json")
    return True


def main(program, seed, count, *engines):
    room = tempfile.mkdtemp()
    report = None
    try:
        if not build_program(program, room):
            print("browser: the program for the page was not built", file=sys.stderr)
            return 1
        modules.write(program, f"{room}/modules.json")
        modules.write(program, f"{room}/drawn.json", seed, count)
        for engine in engines:
            is_node = Path(engine).name == "node"
            report = (by_node if is_node else by_browser)(engine, room, seed)
            if report is not None:
                break
            print(f"browser: {engine} gave no report", file=sys.stderr)
        if report and not is_node and Path(room, "factc.wasm").is_file():
            use_page(engine, room, program, report)
    finally:
        shutil.rmtree(room, ignore_errors=True)
    if report is None:
        return 1
    print(f"browser: {engine} ran them", file=sys.stderr)
    faults = report["faults"]
    for line in [*report["lines"], *faults[:MOST_FAULTS]]:
        print(f"browser: {line}", file=sys.stderr)
    return 1 if faults or report["runs"] == 0 or (report["untaken"] and not is_node) else 0


sys.exit(main(*sys.argv[1:]))
