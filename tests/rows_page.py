"""Rows of `tests/check_page` for what the page shows, used by key and pointer. `check` is the public function.

What a changed schedule gives is worked out by hand here, from the rules of docs/PROTOCOL.md; where the program is
there, the page's text is also compared with what the program writes for the same input.
"""

import base64
import json
import os
import struct
import time

from rows_captures import classic, cooked
from support import programs
from support.examples import EXAMPLES, text_of

WIDTHS = [(1280, 900, False), (390, 844, True)]
KINDS = ["show", "answer", "run"]
MEBIBYTE = 1 << 20
SHOWN_LINES = 2000
MICROSECONDS = 0xA1B2C3D4
QUESTION = "010908c801800002"
DECODED = "0 8>9 tag 0 to 1 som 1 eom 1 seq 0 len 4 whole\n  request 0 GetTID\n"

# Of a machine at rest 200 ms are wanted, and three times the program's time for 1 MiB. A gate beside other work gets
# more, and the least time of several counts: a browser also compiles a module better once it has run for some time.
LOADS = 5
LARGE_RUNS = 8
MOST_MILLISECONDS = 1000
MOST_TIMES_NATIVE = 12

# Colours of a text and of what is behind it, in brightness (WCAG 2.2, "Contrast (Minimum)").
LEAST_CONTRAST = 4.5
CONTROLS = {"button", "textbox", "combobox", "tab", "checkbox", "spinbutton", "progressbar", "listbox"}

# The retry example: its steps, and by the number of an arrow in the picture what it is.
RETRY = text_of("retry.schedule").split("%%\n")[1]
REQUEST, LOST_ANSWER, AGAIN, ANSWER = range(4)


class Used:
    """A page that is used, and what is asked of it."""

    def __init__(self, page, program):
        self.page = page
        self.program = program

    def settle(self):
        self.page.wait("document.getElementById('work').getAttribute('aria-busy') === 'false'")

    def text(self, name):
        return self.page.value(f"document.getElementById('{name}').textContent")

    def typed(self, name):
        return self.page.value(f"document.getElementById('{name}').value")

    def is_shown(self, name):
        return self.page.value(f"document.getElementById('{name}').checkVisibility()")

    def click(self, name):
        self.page.click(f"document.getElementById('{name}')")
        self.settle()

    def type_into(self, name, text):
        """Replaces what stands in a field, by the keys."""
        self.page.click(f"document.getElementById('{name}')")
        self.page.select_all()
        self.page.type(text)
        self.settle()

    def turn(self, kind):
        self.page.click(f"document.querySelector('[data-kind={kind}]')")
        self.settle()

    def choose(self, name, value):
        self.page.value(
            f"(() => {{ const it = document.getElementById('{name}'); it.value = {json.dumps(value)};"
            " it.dispatchEvent(new Event('change')); })()"
        )
        self.settle()

    def arrow(self, number):
        return f"document.querySelectorAll('#picture g.request, #picture g.reply')[{number}].querySelector('.shaft')"

    def press_at(self, number, *keys):
        """Presses keys at an arrow that has the focus."""
        self.page.value(f"{self.arrow(number)}.parentElement.focus()")
        for key in keys:
            self.page.press(key)
            self.settle()

    def whole_input(self):
        return f"{self.typed('device')}%%\n{self.typed('lines')}"

    def agrees(self, rows, name):
        """A row: the program writes the same for this run."""
        if self.program:
            ran = programs.run([self.program, "run"], input=self.whole_input().encode())
            rows.equal(f"{name}: as the program", self.text("text"), ran.stdout.decode())


def typing(rows, used):
    used.page.size(*WIDTHS[0])
    used.turn("show")
    rows.equal("an example stands there", used.typed("lines"), text_of("conversation.capture"))
    used.type_into("lines", f"0 {QUESTION}\n")
    rows.equal("what is typed is decoded", used.text("text"), DECODED)
    used.click("by-name")
    rows.equal("in hex, where names are not wanted", used.text("text"), DECODED.replace("GetTID", "GetTID - ok"))
    used.click("by-name")
    used.choose("binding", "i2c")
    used.type_into("lines", f"0 3a0f0921{QUESTION}ca\n")
    rows.equal("a frame of I2C", used.text("text"), DECODED)
    used.choose("binding", "")
    used.type_into("lines", "0 <b>")
    rows.equal("signs of HTML are text", used.page.value("document.querySelector('#fault b, #lines-fault b')"), None)
    rows.equal("a refused line is named", used.text("fault"), "Refused: line 1: BadHex")
    used.type_into("lines", "# x\n0109080801800002\n")
    warning = "warning: line 2: a moment alone, which looks like a packet: is the moment before it missing?"
    rows.equal("a warning", used.text("warnings"), warning)


def refused_lines(rows, used):
    used.turn("run")
    used.type_into("lines", "requester 8 timeout 200 tries 3\nat 0 open 8 sensor 1\nat 0 req 0\nat 0 reg 0\n")
    words = "Line 4: wrong words: 'reg': expected 'open', 'tick', 'req', 'rep', 'sense', 'restart' or 'busy'"
    rows.equal("a refused line is explained", used.text("lines-fault"), f"{words}; did you mean 'req'?Go there")
    mark = "document.querySelector('#typed .mark')"
    places = [f"{mark}.getBoundingClientRect().top", "document.getElementById('lines').getBoundingClientRect().top"]
    top, field = map(used.page.value, places)
    rows.equal("and marked where it stands", round(top - field), 11 + 3 * 20)
    rows.equal("nothing is drawn then", used.page.value("document.getElementById('picture').children.length"), 0)
    used.page.click("document.querySelector('#lines-fault button')")
    selected = "getSelection().toString()"
    rows.equal("and the keys go there", used.page.value(selected), "at 0 reg 0")
    used.type_into("lines", RETRY)
    rows.equal("no mark is left", used.page.value(f"{mark}.checkVisibility()"), False)
    device = used.typed("device")
    used.page.value("document.getElementById('described').open = true")
    used.type_into("device", device.replace("eid = 9", "eid = 7"))
    words = "line 1, column 1: eid: found 7, allowed is an integer from 8 to 254"
    rows.equal("a refused description is explained", used.text("device-fault"), f"{words}Go there")
    rows.equal("and named", used.text("fault"), "Refused: device: OutOfRange")
    used.type_into("device", device)
    rows.equal("and is whole again", used.text("text"), text_of("retry.expected"))
    used.page.value("document.getElementById('described').open = false")


def changed(old, new):
    """The retry example's schedule with a line in place of another."""
    assert RETRY.count(old) == 1
    return RETRY.replace(old, new)


def below(rows_below):
    """A height on the screen so many rows below the picture's last step."""
    height = 56 + 32 * (4 + rows_below)
    script = "(() => { const it = document.querySelector('#picture svg').getScreenCTM();"
    return f"{script} return it.f + it.d * {height}; }})()"


def packets(rows, used):
    page = used.page
    used.turn("run")
    rows.check("a timely run", used.text("guarantee").startswith("timely: yes. The guarantee holds"))
    page.drag(used.arrow(ANSWER), below(2))
    used.settle()
    rows.equal("a packet is dragged later", used.typed("lines"), changed("at 210 rep", "at 410 rep"))
    rows.check("and the run is shown anew", "\n410 answered\n" in used.text("text"))
    used.agrees(rows, "a packet is dragged later")
    used.click("undo")
    rows.equal("and back", used.typed("lines"), RETRY)
    page.drag(used.arrow(REQUEST), below(-2))
    used.settle()
    moved = changed("at 0 req 0\nat 200 tick 8\n", "at 200 tick 8\nat 200 req 0\n")
    rows.equal("a request is dragged over a tick", used.typed("lines"), moved)
    rows.check("and comes then", "\n200 fresh changed\n200 copy\n" in used.text("text"))
    used.agrees(rows, "a request is dragged over a tick")
    used.click("undo")
    page.click(used.arrow(REQUEST))
    rows.equal("a click chooses a packet", used.text("packet-name")[:9], "Request 0")
    used.click("lose")
    rows.equal("a packet is lost", used.typed("lines"), changed("at 0 req 0\n", ""))
    rows.check("and comes by its repeat alone", "\n200 fresh changed\n210 answered\n" in used.text("text"))
    used.agrees(rows, "a packet is lost")
    used.click("undo")
    page.click(used.arrow(ANSWER))
    used.click("repeat")
    rows.equal("a packet is sent twice", used.typed("lines"), RETRY + "\nat 210 rep 0 0\n"[RETRY.endswith("\n") :])
    rows.check("and dropped the second time", "\n210 answered\n210 drop BadTag\n" in used.text("text"))
    used.agrees(rows, "a packet is sent twice")
    used.click("undo")
    page.click(used.arrow(LOST_ANSWER))
    used.click("recover")
    rows.equal("a lost packet comes", used.typed("lines"), changed("at 0 req 0\n", "at 0 req 0\nat 0 rep 0 0\n"))
    rows.check("and is taken", "\n0 answered\n" in used.text("text"))
    used.agrees(rows, "a lost packet comes")
    used.click("undo")
    page.click(used.arrow(AGAIN))
    used.type_into("packet-moment", "1500")
    page.press("Enter")
    used.settle()
    late = changed("at 200 req 0\nat 210 rep 0 0\n", "at 210 rep 0 0\nat 1500 req 0\n")
    rows.equal("a packet comes at a moment that is typed", used.typed("lines"), late)
    words = "'at 1500 req 0': it came 1500 ms after the request was opened, and the keeping time is 1000 ms."
    rows.check("and makes the run untimely", words in used.text("guarantee"), used.text("guarantee"))
    rows.equal("which is marked", page.value("document.querySelectorAll('#picture .untimely').length"), 1)
    used.agrees(rows, "a packet comes at a moment that is typed")


def keys(rows, used):
    used.turn("run")
    used.press_at(ANSWER, "ArrowDown")
    rows.equal("a key moves a packet", used.typed("lines"), changed("at 210 rep", "at 310 rep"))
    used.page.press("Delete")
    used.settle()
    rows.equal("a key loses it", used.typed("lines"), changed("at 210 rep 0 0\n", ""))
    used.click("undo")
    used.click("undo")
    used.press_at(REQUEST, "d")
    rows.equal("a key sends it twice", used.typed("lines"), changed("at 0 req 0\n", "at 0 req 0\nat 0 req 0\n"))
    rows.check("which is a copy", "\n0 fresh changed\n0 copy\n" in used.text("text"))
    used.choose("example", "untimely.schedule")
    words = "timely: no, from line 5, 'at 1000 req 0': it came 1000 ms after the request was opened"
    rows.check("an untimely run names its packet", used.text("guarantee").startswith(words), used.text("guarantee"))
    used.press_at(2, "ArrowUp")
    rows.check("a key makes it timely", used.text("guarantee").startswith("timely: yes."), used.text("guarantee"))
    used.page.value("document.getElementById('tab-run').focus()")
    used.page.press("ArrowRight")
    used.settle()
    rows.equal("a key turns to a task", used.page.value("document.activeElement.id"), "tab-show")
    order = []
    for _ in range(4):
        used.page.press("Tab")
        order.append(used.page.value("document.activeElement.id"))
    rows.equal("Tab goes through the page in order", order, ["example", "binding", "by-name", "file"])


def answers(rows, used, run):
    used.turn("answer")
    used.choose("example", "copies.txt")
    rows.equal("a device answers", used.text("text"), text_of("copies.expected"))
    paths = [os.path.join(EXAMPLES, name) for name in ("copies.txt", "copies.expected")]
    script = os.path.join(os.path.dirname(EXAMPLES), "contrib", "conversation")
    capture = programs.run([script, *paths]).stdout.decode()
    rows.equal("its answers are decoded", used.text("decoded"), run(["show", "--decode"], capture).stdout.decode())


def files(rows, used, room):
    def dropped(name, data):
        path = os.path.join(room, name)
        with open(path, "wb") as file:
            file.write(data)
        used.page.drop(path)
        # the file is read after the drop
        used.page.wait(f"document.getElementById('file-note').textContent.startsWith({json.dumps(name)})")
        used.settle()

    used.turn("run")
    capture = text_of("question.capture")
    dropped("board.log", capture.encode())
    rows.equal("a log is dropped", used.typed("lines"), capture)
    rows.check("and decoded", "GetTID" in used.text("text"))
    dropped("bus.pcap", classic("<", MICROSECONDS, 113, (0, 5_250, cooked(113, QUESTION))))
    rows.equal("a file of pcap is dropped", used.typed("lines"), f"#+ 0.250 ms\n5 {QUESTION}\n")
    dropped("cut.pcap", classic("<", MICROSECONDS, 113, (0, 0, cooked(113, QUESTION))) + struct.pack("<I", 1))
    rows.check("a file that is cut says so", "the file breaks off" in used.text("file-note"), used.text("file-note"))
    rows.equal("and what stands before that is there", used.typed("lines"), f"0 {QUESTION}\n")
    dropped("run.schedule", text_of("untimely.schedule").encode())
    rows.equal("a whole input is dropped", used.text("text"), text_of("untimely.expected"))
    dropped("device.toml", text_of("device.toml").encode())
    rows.equal("a description is dropped", used.typed("device"), text_of("device.toml"))


def mebibyte():
    """A capture of 1 MiB, and what is shown of it by name."""
    lines = [(number, f"{number:016} {QUESTION}\n") for number in range(MEBIBYTE // 34)]
    text = "".join(line for _, line in lines)
    shown = "".join(f"{number} {DECODED[2:]}" for number, _ in lines)
    return text + "#" * (MEBIBYTE - len(text)), shown


def large_files(rows, used, run, room):
    text, shown = mebibyte()
    path = os.path.join(room, "large.log")
    with open(path, "w", encoding="utf-8") as file:
        file.write(text)
    rows.check("1 MiB is decoded", run(["show", "--decode"], text).stdout.decode() == shown)
    used.turn("show")
    times, natives = [], []
    for _ in range(LARGE_RUNS):
        if times:
            used.click("close")
        used.page.drop(path)
        used.page.wait("document.getElementById('large').checkVisibility()")
        used.settle()
        times.append(float(used.text("took").split()[2]))
        natives.append(native_time(used.program, text) if used.program else 0)
    front = "".join(shown.splitlines(True)[:SHOWN_LINES])
    rows.check("1 MiB is dropped: its front is shown", used.text("text") == front)
    left = f"{len(shown) - len(front):,} characters more are not shown yet."
    rows.equal("and how much is not", used.text("rest-note"), left)
    used.click("more")
    rows.equal("more is shown", len(used.text("text").splitlines()), 2 * SHOWN_LINES)
    used.click("link")
    rows.equal("it has no place in a link", used.text("linked-note"), "A file of this size has no place in a link.")
    used.click("close")
    if used.program:
        well = min(times) <= MOST_TIMES_NATIVE * min(natives)
        found = f"{min(times)} ms, {times[0]} ms at first, the program {min(natives):.0f} ms"
        rows.measure(f"1 MiB takes {MOST_TIMES_NATIVE} times the program's time at most", well, found)


def native_time(program, text):
    """How many milliseconds the program takes."""
    data = text.encode()
    begin = time.monotonic()
    programs.run([program, "show", "--decode"], input=data)
    return 1000 * (time.monotonic() - begin)


def stopping(rows, used, room):
    path = os.path.join(room, "largest.log")
    with open(path, "w", encoding="utf-8") as file:
        file.write(mebibyte()[0] + "\n")
        for _ in range(14):
            file.write(f"{MEBIBYTE} {QUESTION}\n" * (MEBIBYTE // 25))
    used.turn("show")
    used.page.drop(path)
    used.page.wait("document.getElementById('under-way').checkVisibility()")
    rows.check("long work has progress", used.page.value("document.getElementById('progress').value") > 0)
    rows.check("and is told", "bytes under way" in used.text("under-way-words"), used.text("under-way-words"))
    used.click("stop")
    rows.equal("and can be stopped", used.text("fault"), "Stopped.")
    used.click("close")
    used.type_into("lines", f"0 {QUESTION}\n")
    rows.equal("and the page goes on", used.text("text"), DECODED)


def link(rows, used, browser, url):
    used.turn("run")
    used.type_into("lines", changed("at 210", "at 222"))
    used.click("link")
    used.page.wait("document.getElementById('address').value")
    address = used.typed("address")
    rows.check("a link is made", address.startswith(f"{url}#run=z"), address[:80])
    other = Used(browser.page(), used.program)
    other.page.open(address)
    for name in ("lines", "device"):
        rows.equal(f"a link opens the same {name}", other.typed(name), used.typed(name))
    rows.equal("and shows the same", other.text("text"), used.text("text"))
    other.page.open(f"{url}#run=zzzz")
    rows.check("a broken link says so", other.text("file-note").startswith("The link is broken"))
    rows.equal("and an example stands there", other.typed("lines"), RETRY)
    other.page.close()


def looks(rows, used, pictures):
    """The widths, the colours, the names of controls, and paper."""
    for width, height, is_phone in WIDTHS:
        used.page.size(width, height, is_phone)
        for kind in KINDS:
            used.turn(kind)
            well = used.page.value("document.documentElement.scrollWidth <= innerWidth")
            rows.check(f"{kind} at {width} pixels is not wider than the page", well)
            if pictures:
                used.page.picture(os.path.join(pictures, f"{kind}_{width}.png"))
    used.page.size(*WIDTHS[0])
    for scheme in ("light", "dark"):
        used.page.call("Emulation.setEmulatedMedia", features=[{"name": "prefers-color-scheme", "value": scheme}])
        used.turn("run")
        used.type_into("lines", "at x\n")
        rows.check(f"{scheme}: each text stands out", *contrast(used.page))
        if pictures:
            used.page.picture(os.path.join(pictures, f"refused_{scheme}.png"))
        used.turn("run")
        if pictures:
            used.page.picture(os.path.join(pictures, f"run_{scheme}.png"))
    tree = used.page.call("Accessibility.getFullAXTree")["nodes"]
    controls = [node for node in tree if node.get("role", {}).get("value") in CONTROLS]
    named = [(node["role"]["value"], node["name"]["value"]) for node in controls]
    nameless = [role for role, name in named if not name.strip()]
    rows.check("each control has a name", len(named) > 10 and not nameless, f"{len(named)} controls, {nameless}")
    used.page.call("Emulation.setEmulatedMedia", media="print", features=[])
    rows.equal("paper has no controls", [used.is_shown(name) for name in ("tab-run", "example", "save")], [False] * 3)
    most = used.page.value("getComputedStyle(document.getElementById('text')).maxHeight")
    rows.equal("and the whole text", most, "none")
    used.page.call("Emulation.setEmulatedMedia", media="", features=[])


COLOURS = """(() => {
    const numbers = (text) => text.match(/[0-9.]+/g).map(Number);
    const behind = (it) => {
        for (let at = it; at; at = at.parentElement) {
            const colour = numbers(getComputedStyle(at).backgroundColor);
            if (colour.length < 4 || colour[3] > 0) return colour.slice(0, 3);
        }
        return [255, 255, 255];
    };
    const names = 'h1, h2, p, button:enabled, label, select, input, textarea, pre, summary';
    const all = [...document.querySelectorAll(names)];
    const shown = all.filter((it) => it.checkVisibility() && !it.closest('svg'));
    return shown.map((it) => [it.id || it.tagName, numbers(getComputedStyle(it).color).slice(0, 3), behind(it)]);
})()"""


def brightness(colour):
    parts = [part / 255 for part in colour]
    red, green, blue = (part / 12.92 if part <= 0.04045 else ((part + 0.055) / 1.055) ** 2.4 for part in parts)
    return 0.2126 * red + 0.7152 * green + 0.0722 * blue


def contrast(page):
    """Whether each text stands out against what is behind it, and those that do not."""
    faint = []
    found = page.value(COLOURS)
    for name, *colours in found:
        low, high = sorted(map(brightness, colours))
        if (high + 0.05) / (low + 0.05) < LEAST_CONTRAST:
            faint.append(name)
    return len(found) > 15 and not faint, f"{len(found)} texts, {faint}"


def with_most_pages(module, more):
    """A module whose memory may get so many pages more than it has at first."""

    def number(at):
        value = shift = 0
        while True:
            value |= (module[at] & 0x7F) << shift
            shift, at = shift + 7, at + 1
            if not module[at - 1] & 0x80:
                return value, at

    def packed(value):
        parts = []
        while value > 0x7F:
            parts.append(value & 0x7F | 0x80)
            value >>= 7
        return bytes([*parts, value])

    at = 8
    while module[at] != 5:
        length, begin = number(at + 1)
        at = begin + length
    length, begin = number(at + 1)
    assert module[begin : begin + 2] == b"\x01\x04"
    pages, _ = number(begin + 2)
    section = b"\x01\x05" + packed(pages) + packed(pages + more)
    return module[:at] + b"\x05" + packed(len(section)) + section + module[begin + length :]


def memory(rows, used, browser, module, build, room):
    """Each growth of the module's memory is refused in turn: the run cannot be done, and nothing else happens."""
    with open(module, "rb") as file:
        whole = file.read()
    text = json.dumps(text_of("retry.schedule"))
    statuses = []
    while (not statuses or statuses[-1] == 3) and len(statuses) < 64:
        limited = list(with_most_pages(whole, len(statuses)))
        script = f"new WebAssembly.Module(Uint8Array.from(atob('{b64(limited)}'), (sign) => sign.charCodeAt(0)))"
        statuses.append(used.page.value(f"engines.call({script}, 'run', {text}).status"))
    well = len(statuses) > 3 and statuses == [3] * (len(statuses) - 1) + [0]
    rows.check(f"{len(statuses) - 1} growths refused in turn: no memory", well, str(statuses))
    limited, html = os.path.join(room, "limited.wasm"), os.path.join(room, "limited.html")
    with open(limited, "wb") as file:
        file.write(with_most_pages(whole, len(statuses) - 2))
    programs.run([build, "--over", limited, html])
    other = Used(browser.page(), None)
    other.page.open(f"file://{html}#run")
    words = "There was not enough memory for this run. Nothing of what you typed is lost."
    rows.equal("a run without memory says so", other.text("fault"), words)
    rows.equal("and what was typed is there", other.typed("lines"), RETRY)
    other.turn("show")
    rows.equal("and a smaller input is shown", other.text("fault"), "")
    other.page.close()


def b64(data):
    return base64.b64encode(bytes(data)).decode()


def old_browsers(rows, browser, url):
    other = Used(browser.page(), None)
    other.page.call("Page.addScriptToEvaluateOnNewDocument", source="WebAssembly.validate = () => false;")
    other.page.open(url)
    rows.equal("a browser without 64-bit memory is told", other.is_shown("unsupported"), True)
    other.page.close()


def network(rows, used):
    script = """new Promise((done) => {
        addEventListener('securitypolicyviolation', (event) => done(event.effectiveDirective), { once: true });
        %s;
    })"""
    for name, words in {
        "connect-src": "fetch('http://127.0.0.1:9/').catch(() => 0)",
        "img-src": "new Image().src = 'http://127.0.0.1:9/'",
        "form-action": "const it = document.createElement('form'); it.action = 'http://127.0.0.1:9/';"
        " document.body.append(it); it.submit()",
    }.items():
        rows.equal(f"nothing leaves the page by {name}", used.page.value(script % words), name)


def loading(rows, used, url):
    times = []
    for _ in range(LOADS):
        used.page.open(f"{url}#show")
        times.append(used.page.value("performance.getEntriesByName('shown')[0].startTime"))
    found = f"{min(times):.0f} ms of at most {MOST_MILLISECONDS}"
    rows.measure("a decoded capture is shown in time", min(times) <= MOST_MILLISECONDS, found)
    rows.check("it is that of the example", "GetTID" in used.text("text"))


def check(rows, browser, html, module, run, build, program, pictures, room):
    """Runs all rows over a page; `run` runs the module as `tests/check` runs the program."""
    url = f"file://{html}"
    used = Used(browser.page(), program)
    loading(rows, used, url)
    for part in (typing, refused_lines, packets, keys):
        part(rows, used)
    answers(rows, used, run)
    files(rows, used, room)
    large_files(rows, used, run, room)
    stopping(rows, used, room)
    link(rows, used, browser, url)
    looks(rows, used, pictures)
    memory(rows, used, browser, module, build, room)
    old_browsers(rows, browser, url)
    rows.equal("nothing is refused or broken", used.page.faults(), [])
    network(rows, used)
