"""python3 tests/try_desk.py [PICTURES], by hand: the desk in Debian's Chromium, by pointer and by keyboard alone.

It wants `apt-get install chromium`. Each line that it prints was found to hold; the first that does not ends it. With a
folder it writes the pictures of the documents there.
"""

from __future__ import annotations

import json
import os
import random
import subprocess
import sys
import tempfile
import threading
import time
import urllib.error
import urllib.request
from typing import Any, Callable, List, Optional, Tuple

TOP = os.path.dirname(os.path.dirname(os.path.abspath(__file__)))
sys.path.insert(0, TOP)

from tests.browser_support import CONTROL, SHIFT, Browser  # noqa: E402

EXAMPLES = os.path.join(TOP, "examples")
MARKUP = "<script>window.hacked=1</script><img src=x onerror=window.hacked=2>"
LOOKS = os.path.join(os.path.dirname(os.path.abspath(__file__)), "looks.js")


def held(words: str, is_so: Any) -> None:
    """Tells what holds; ends where it does not."""
    if not is_so:
        raise SystemExit(f"does not hold: {words} ({is_so!r})")
    print(f"holds: {words}", flush=True)


class Desk:
    """A desk as a process of its own."""

    def __init__(self, folder: str) -> None:
        words = [sys.executable, "-W", "error", "-m", "jambulskeg", "desk", folder, "--no-browser", "--jobs", "2"]
        self.process = subprocess.Popen(words, cwd=TOP, stdout=subprocess.PIPE, text=True)
        assert self.process.stdout is not None
        self.address = self.process.stdout.readline().split()[-1]

    def end(self, kill: bool = False) -> None:
        """Ends it, by the signal that nothing can catch if asked for."""
        (self.process.kill if kill else self.process.terminate)()
        self.process.communicate()

    def asked(self, path: str, tree: Any = None) -> Any:
        """What comes back from a path; a tree is posted as the page does."""
        body = None if tree is None else json.dumps(tree).encode()
        headers = {"Origin": "/".join(self.address.split("/")[:3]), "Content-Type": "application/json"}
        with urllib.request.urlopen(urllib.request.Request(f"{self.address}api/{path}", body, headers)) as answer:
            return json.load(answer)


class Planner:
    """A planner before the page."""

    def __init__(self, page: Browser, pictures: Optional[str]) -> None:
        self.page, self.pictures = page, pictures

    def open(self, address: str) -> None:
        """Opens a page anew."""
        self.page.go("about:blank")
        self.page.go(address)
        self.page.wait("document.body && document.body.dataset.ready")

    def text(self, selector: str) -> str:
        """The text of an element."""
        return str(self.page.value(f"document.querySelector({json.dumps(selector)}).textContent"))

    def picture(self, name: str) -> None:
        """Keeps a picture."""
        if self.pictures:
            time.sleep(0.6)
            self.page.picture(os.path.join(self.pictures, f"{name}.png"))

    def chip(self, name: str) -> str:
        """The button of a visit."""
        return f'.chip[aria-label^="{name},"]'

    def routes(self) -> List[str]:
        """The visits of each row, what is left out last."""
        found: List[str] = self.page.value(
            "Array.from(document.querySelectorAll('.chips')).map(list => Array.from(list.querySelectorAll('.chip'))"
            ".map(chip => chip.firstChild.textContent).join(' '))"
        )
        return found

    def cost(self) -> int:
        """What the day costs."""
        return int(self.text("#cost"))

    def drag(self, name: str, before: str) -> float:
        """Drags a visit in front of another; the seconds until the page says what came of it."""
        self.page.middle(self.chip(before))
        x, y = self.page.middle_seen(self.chip(before))
        box = self.page.value(f"document.querySelector({json.dumps(self.chip(before))}).getBoundingClientRect().width")
        self.page.value("for (const id of ['said', 'refusal']) document.getElementById(id).textContent = ''")
        began = time.monotonic()
        self.page.drag(self.chip(name), (x - box / 2 + 2, y))
        self.page.wait("document.querySelector('#said').textContent + document.querySelector('#refusal').textContent")
        return time.monotonic() - began

    def planned(self, seconds: float) -> None:
        """Lets the day be planned."""
        self.page.value(f"document.querySelector('#seconds').value = {seconds}")
        time.sleep(0.5)  # until the charts are drawn, which may move the button
        self.page.click("#plan")
        self.page.wait("!document.querySelector('#stop').hidden")
        self.page.wait("document.querySelector('#stop').hidden", seconds + 60)
        time.sleep(0.3)

    def made_of_tables(self, places: str, vans: str, name: str) -> None:
        """Makes a day of two files."""
        self.page.click("#new")
        self.page.click("input[value=tables]")
        self.page.files("#file-places", [places])
        self.page.files("#file-vans", [vans])
        self.page.value(f"document.querySelector('#new-name').value = {json.dumps(name)};"
                        "document.querySelector('#speed').value = 30")
        self.page.click("#form-new button[type=submit]")


def load_and_plan(planner: Planner, folder: str) -> None:
    """Two spreadsheets are refused at a row, then read, and the day is planned."""
    places, vans = (os.path.join(EXAMPLES, name) for name in ("places.csv", "vans.csv"))
    with open(places, encoding="utf-8") as file:
        text = file.read()
    faulty = os.path.join(folder, "faulty.csv")
    with open(faulty, "w", encoding="utf-8") as file:
        file.write(text.replace("8,-2,4", "8,west,4"))
    planner.made_of_tables(faulty, vans, "Monday")
    planner.page.wait("!document.querySelector('#new-problem').hidden")
    held("a faulty cell is told with its line", "line 5, column 'y'" in planner.text("#new-problem"))
    held("and marked in its row", planner.text("#new-problem .faulty") == "west")
    planner.picture("desk-refused-table")
    planner.page.click("#new-cancel")
    planner.made_of_tables(places, vans, "Monday")
    planner.page.wait("document.querySelectorAll('.chip').length == 12")
    held("nothing is planned yet", planner.text(".verdict") == "nothing is planned yet")
    planner.planned(1)
    held("the day is planned", (planner.text(".verdict"), planner.cost()) == ("keeps all rules", 237))
    held("progress has its table", planner.page.value("document.querySelectorAll('#progress-table tbody tr').length"))
    planner.picture("desk-planned")


def drag_and_undo(planner: Planner) -> None:
    """Visits are dragged, a drag is refused, steps are undone."""
    before, cost = planner.routes(), planner.cost()
    seconds = planner.drag("Gus", "Fay")
    held("a drag is refused with the rule in words", planner.text("#refusal").startswith(
        "Not done. green comes from Fay to its end, yard, at 16:13 at the earliest, and it must be there from 8:00"))
    held("nothing was changed", (planner.routes(), planner.cost()) == (before, cost))
    held(f"that took {seconds:.2f} s with the drag", seconds < 2)
    planner.picture("desk-refused-drag")
    planner.drag("Ada", "Hana")
    held("a visit is dragged within its van", "Cleo Ada Hana" in planner.routes())
    held("the new cost is beside the old one", "before" in planner.text("#costs thead"))
    planner.page.click("#undo")
    planner.page.wait("document.querySelector('#said').textContent.startsWith('Undone')")
    held("undo brings it back", planner.routes() == before)
    planner.page.key("y", CONTROL)
    planner.page.wait("document.querySelector('#said').textContent.startsWith('Done again')")
    held("Control and Y does it again", "Cleo Ada Hana" in planner.routes())
    planner.page.middle(planner.chip("Dora"))
    planner.page.drag(planner.chip("Lea"), planner.page.middle_seen('[aria-label^="blue:"] .about b'))
    planner.page.wait("document.querySelector('#said').textContent.startsWith('Lea to blue, before Dora')")
    held("a visit that is dropped on a van's name goes to its best place", planner.routes()[1].startswith("Lea Dora"))
    planner.page.click("#undo")
    planner.page.wait("document.querySelector('#said').textContent.startsWith('Undone: Lea')")
    planner.page.click(planner.chip("Cleo"))
    planner.page.click(planner.chip("Ada"), SHIFT)
    held("Shift takes a run", planner.page.value("document.querySelectorAll('.chip[aria-pressed=true]').length") == 2)
    planner.drag("Cleo", "Dora")
    held("a run is dragged to another van", not any("Cleo Ada Hana" in row for row in planner.routes())
         or bool(planner.text("#refusal")))


def edit_and_improve(planner: Planner) -> None:
    """A van is switched off, another pinned, a window edited, and the day improved from there."""
    page = planner.page
    page.click('button[aria-label="Pin blue"]')
    page.wait("document.querySelector('#said').textContent.startsWith('Blue pinned')")
    blue = planner.routes()[1]
    page.click('button[aria-label="Switch green off"]')
    page.wait("document.querySelector('#said').textContent.startsWith('Green switched off')")
    held("the visits of a van that is off are left out", planner.text(".verdict") == "unfinished")
    held("green stays at home", planner.routes()[2] == "")
    planner.picture("desk-unfinished")
    page.click('button[aria-label="Switch green off"]')
    page.wait("document.querySelector('#said').textContent.startsWith('Green switched on')")
    page.click(planner.chip("Lea"))
    page.click("#why")
    page.wait("document.querySelectorAll('.offers li').length == 3")
    planner.picture("desk-why")
    cost = planner.cost()
    planner.planned(1)
    held("the pinned van stays as it is", planner.routes()[1] == blue)
    held("nothing required is left out, nothing got dearer but what was missing",
         planner.text(".verdict") == "keeps all rules" and cost > 0)
    page.click(planner.chip("Ada"))
    page.value("document.querySelector('#edit-open').value='8:00';document.querySelector('#edit-close').value='8:05'")
    page.click("#edit-close")
    page.key("Enter")
    page.wait("!document.querySelector('#refusal').hidden")
    held("an edit that a route cannot keep is refused", "may begin from 8:00 to 8:05" in planner.text("#refusal"))
    page.click("#refusal button")
    page.wait("document.querySelector('#refusal').hidden")
    held("or leaves the visit out", planner.routes()[-1].count("Ada") == 1)
    page.click("#undo")
    page.wait("document.querySelector('#said').textContent.startsWith('Undone')")
    page.click('button[aria-label="Pin blue"]')
    page.wait("document.querySelector('#said').textContent.startsWith('Blue unpinned')")


def exports(planner: Planner) -> None:
    """Each link of the menu gives a file."""
    page = planner.page
    page.click(".menu summary")
    found = page.value(
        "Promise.all(Array.from(document.querySelectorAll('#exports a')).map(link => fetch(link.href).then(answer =>"
        " answer.blob().then(file => [link.textContent, answer.status, file.size]))))"
    )
    for words, status, size in found:
        held(f"export: {words}", status == 200 and size > 100)
    page.click(".menu summary")


def compared(planner: Planner) -> None:
    """The day beside an earlier step of itself."""
    planner.page.click("#compare")
    planner.page.wait("document.querySelector('#dialog-compare').open")
    planner.page.click("#form-compare button[type=submit]")
    planner.page.wait("!document.querySelector('#beside').hidden")
    held("two steps are shown side by side", planner.page.value(
        "document.querySelectorAll('#beside-body section').length") == 2)
    planner.picture("desk-compared")
    planner.page.click("#beside-close")


def by_keys_alone(planner: Planner, address: str) -> None:
    """Everything of a day by the keyboard, from the address on."""
    page = planner.page
    planner.open(address)
    page.wait("document.querySelectorAll('.chip').length == 12")
    before = planner.routes()

    def tab_to(test: str) -> None:
        for _ in range(60):
            if page.value(f"(() => {{ const e = document.activeElement; return {test}; }})()"):
                return
            page.key("Tab")
        raise SystemExit(f"the keyboard does not come to {test}")

    tab_to("e.classList.contains('chip')")
    first = page.value("document.activeElement.firstChild.textContent")
    page.key("ArrowDown")
    page.key("ArrowRight")
    second = page.value("document.activeElement.firstChild.textContent")
    held(f"arrows go from {first} to {second}", first != second)
    page.key("Enter")
    held("Enter takes it up", "taken up" in planner.text("#said"))
    page.key("ArrowLeft")
    page.key("Escape")
    held("Escape lets it be", planner.routes() == before)
    page.key("Delete")
    page.wait("document.querySelector('#said').textContent.includes('left out')")
    held("Delete leaves it out", second in planner.routes()[-1])
    page.key("z", CONTROL)
    page.wait("document.querySelector('#said').textContent.startsWith('Undone')")
    held("Control and Z undoes it", planner.routes() == before)
    tab_to("e.classList.contains('chip')")
    held("the focus stayed on a visit", page.value("document.activeElement.classList.contains('chip')"))
    page.key("Home")
    page.key("ArrowRight", SHIFT)
    held("Shift and an arrow takes a run", page.value(
        "document.querySelectorAll('.chip[aria-pressed=true]').length") == 2)
    page.key("Enter")
    for _ in range(4):
        page.key("ArrowDown")
    page.key("Enter")
    page.wait("document.querySelector('#said').textContent.includes('left out')")
    held("a run is carried to what is left out", len(planner.routes()[-1].split()) >= 2)
    page.key("z", CONTROL)
    page.wait("document.querySelector('#said').textContent.startsWith('Undone')")
    tab_to("e.id == 'new'")
    page.key("Enter")
    page.wait("document.querySelector('#dialog-new').open")
    page.key("Escape")
    page.wait("!document.querySelector('#dialog-new').open")
    tab_to("e.id == 'plan'")
    page.key("Enter")
    page.wait("!document.querySelector('#stop').hidden")
    tab_to("e.id == 'stop'")
    page.key("Enter")
    page.wait("document.querySelector('#stop').hidden")
    held("a search is begun and stopped by keys", True)


def looked_at(planner: Planner) -> None:
    """Rules of pages that all can read, at two widths, light and dark."""
    with open(LOOKS, encoding="utf-8") as file:
        script = file.read()
    for width in (1400, 820):
        for is_dark in (False, True):
            planner.page.size(width, 1000)
            planner.page.dark(is_dark)
            time.sleep(0.4)
            found = planner.page.value(script)
            name = f"{width} pixels, {'dark' if is_dark else 'light'}"
            held(f"{name}: labels, names, contrast, focus, tables {found or ''}", not found)
            wide = planner.page.value("document.scrollingElement.scrollWidth - window.innerWidth")
            held(f"{name}: nothing is wider than the page", wide <= 0)
            planner.page.value("window.scrollTo(0, 0)")
            planner.picture(f"desk-{width}-{'dark' if is_dark else 'light'}")
    planner.page.size(1400, 1000)
    planner.page.dark(False)


def hostile_names(planner: Planner, folder: str) -> None:
    """Names that are markup are shown as they are."""
    places, vans = os.path.join(folder, "p.csv"), os.path.join(folder, "v.csv")
    with open(places, "w", encoding="utf-8") as file:
        file.write(f'name,x,y,{MARKUP}\nyard,0,0,\n"{MARKUP}",3,4,{MARKUP}\nBen,1,2,\n')
    with open(vans, "w", encoding="utf-8") as file:
        file.write(f'name,start\n"{MARKUP}",yard\n')
    planner.made_of_tables(places, vans, MARKUP)
    planner.page.wait("document.querySelectorAll('.chip').length == 2")
    planner.planned(1)
    planner.page.click(".chip")
    planner.page.wait("document.querySelectorAll('#charts svg').length")
    planner.page.click("#compare")
    planner.page.wait("document.querySelector('#dialog-compare').open")
    planner.page.click("#form-compare button[type=submit]")
    planner.page.wait("!document.querySelector('#beside').hidden")
    time.sleep(0.3)
    held("no name is run", planner.page.value("window.hacked === undefined"))
    held("no name is an element", planner.page.value("document.querySelectorAll('main img, main script').length") == 0)
    held("the name is shown", MARKUP in planner.text("#board"))


def large_day(planner: Planner, desk: Desk, folder: str) -> None:
    """A thousand places and fifty vans."""
    rng, rows = random.Random(1), ["name,x,y,demand,open,close,service,penalty", "yard,0,0,,,,,"]
    for number in range(1, 1000):
        at = rng.randint(480, 900)
        rows.append(f"place {number},{rng.randint(-60, 60)},{rng.randint(-60, 60)},{rng.randint(1, 4)},"
                    f"{at // 60}:{at % 60:02},{(at + 240) // 60}:{at % 60:02},5,500")
    vans = ["name,start,capacity,fixed,from,to", *(f"van {number},yard,80,50,7:00,20:00" for number in range(50))]
    files = [os.path.join(folder, name) for name in ("large.csv", "many.csv")]
    for path, lines in zip(files, (rows, vans)):
        with open(path, "w", encoding="utf-8") as file:
            file.write("\n".join(lines))
    planner.made_of_tables(files[0], files[1], "large")
    planner.page.wait("document.querySelectorAll('.chip').length == 999", 60)
    planner.planned(15)
    print(planner.text("#progress-words"))
    for number in range(4):
        name = planner.page.value(
            "document.querySelector('.chips:not([data-row=left]) .chip').firstChild.textContent"
        )
        planner.page.click(planner.chip(name))
        began = planner.page.value("performance.now()")
        planner.page.key("Delete")
        planner.page.wait(f"document.querySelector('#said').textContent.startsWith({json.dumps(name.capitalize())})")
        spent = planner.page.value("performance.getEntriesByType('resource').filter(e => e.name.endsWith('/change')"
                                   f" && e.startTime >= {began}).pop().duration")
        print(f"a change of 1000 places and 50 vans: {spent:.0f} ms at the page (load {os.getloadavg()[0]:.1f})")
        planner.page.wait("document.querySelector('.verdict').textContent != 'being checked'")
        time.sleep(1)
    held("the whole of a large day is checked soon", planner.text(".verdict") == "keeps all rules")
    began = time.monotonic()
    planner.open(f"{desk.address}#large")
    planner.page.wait("document.querySelectorAll('.chip').length == 999", 60)
    print(f"opened by the page in {time.monotonic() - began:.2f} s")


def flood(desk: Desk) -> None:
    """A thousand requests at once, of which none but the page's own is served."""
    found: List[Tuple[str, int]] = []
    token = desk.address.split("/")[3]
    forms: List[Tuple[str, str, str]] = [
        ("good", f"{token}/api/days", ""), ("bad token", "x/api/days", ""), ("dots", f"{token}/../../etc/passwd", ""),
        ("another origin", f"{token}/api/days", "http://evil.example"),
    ]

    def ask(number: int) -> None:
        kind, path, origin = forms[number % len(forms)]
        headers = {"Origin": origin} if origin else {}
        try:
            address = "/".join(desk.address.split("/")[:3]) + "/" + path
            with urllib.request.urlopen(urllib.request.Request(address, headers=headers), timeout=60) as answer:
                found.append((kind, answer.status))
        except urllib.error.HTTPError as problem:
            found.append((kind, problem.code))
        except OSError:
            found.append((kind, 0))

    threads = [threading.Thread(target=ask, args=(number,)) for number in range(1000)]
    for thread in threads:
        thread.start()
    for thread in threads:
        thread.join()
    for kind, status in (("good", 200), ("bad token", 403), ("dots", 404), ("another origin", 403)):
        held(f"a thousand at once: {kind} is answered {status}", found.count((kind, status)) == 250)


def main(pictures: Optional[str]) -> None:
    """Goes through all of it."""
    with tempfile.TemporaryDirectory() as folder, Browser() as page:
        days = os.path.join(folder, "days")
        desk, planner = Desk(days), Planner(page, pictures)
        try:
            planner.open(desk.address)
            load_and_plan(planner, folder)
            works: List[Callable[[Planner], None]] = [drag_and_undo, edit_and_improve, exports, compared, looked_at]
            for work in works:
                work(planner)
            seen = desk.asked("day/monday")
            desk.end(kill=True)
            desk = Desk(days)
            held("a killed desk opens as it was", desk.asked("day/monday") == seen)
            by_keys_alone(planner, desk.address)
            hostile_names(planner, folder)
            large_day(planner, desk, folder)
            flood(desk)
            problems = [words for words in page.problems() if "422" not in words and "ERR_CONNECTION" not in words]
            held(f"the page complained of nothing {problems or ''}", not problems)
        finally:
            desk.end()


if __name__ == "__main__":
    main(sys.argv[1] if len(sys.argv) > 1 else None)
