"""The desk over HTTP: what the page asks, and what nobody else gets."""

from __future__ import annotations

import base64
import contextlib
import io
import json
import os
import random
import signal
import socket
import subprocess
import sys
import tempfile
import threading
import time
import unittest
import urllib.request
from typing import Any, Dict, List, Tuple
from unittest import mock

from jambulskeg.__main__ import main
from jambulskeg.complete import route_of
from jambulskeg.desk import Folder, FolderInUse, OpenDay
from jambulskeg.desk.command import Opener
from jambulskeg.desk.guard import MOST_BYTES
from jambulskeg.desk.journal import lines_read
from jambulskeg.desk.server import DeskServer
from jambulskeg.program import Program

from .desk_support import THREE_VANS, DeskTests
from .support import EXAMPLES

TOP = os.path.dirname(os.path.dirname(os.path.abspath(__file__)))
MARKUP = "</script><script>alert(1)</script><img src=x onerror=alert(2)> \" style=\"x"


def upload(name: str, text: str) -> Dict[str, str]:
    """A file as the page sends it."""
    return {"name": name, "data": base64.b64encode(text.encode()).decode()}


class PageTests(DeskTests):
    def test_a_day_from_beginning_to_end(self) -> None:
        self.assertEqual(self.get("days")["days"], [])
        day = self.made()
        self.assertEqual(self.get(day)["status"], "empty")
        planned = self.planned(day)
        self.assertEqual((planned["status"], planned["cost"]), ("fine", 237))
        self.assertEqual(self.get(f"{day}/search")["points"][-1][1:], [237, 0])
        reply = self.post(f"{day}/change", {"step": 1, "change": {
            "kind": "move", "nodes": [planned["vehicles"][1]["visits"][0]], "vehicle": 0}})
        self.assertTrue(reply["answer"]["made"])
        self.assertEqual(sum(reply["answer"]["before"].values()), 237)
        self.assertGreater(reply["day"]["cost"], 237)
        self.assertEqual(self.post(f"{day}/undo", {})["day"]["cost"], 237)
        self.assertEqual(self.post(f"{day}/redo", {})["day"]["step"], 2)
        self.assertEqual(self.post(f"{day}/goto", {"number": 1})["day"]["step"], 1)
        self.assertEqual(self.post(f"{day}/name", {"name": "Friday"}), {"name": "Friday"})
        self.assertEqual(len(self.get(f"{day}/steps")["steps"]), 2)
        self.assertEqual([entry["name"] for entry in self.get("days")["days"]], ["Friday"])
        self.assertIn("<svg", self.get(f"{day}/charts")["charts"])

    def test_it_opens_as_it_was(self) -> None:
        day = self.made()
        self.planned(day)
        self.post(f"{day}/change", {"step": 1, "change": {"kind": "pin", "vehicle": 0, "pinned": True}})
        self.post(f"{day}/undo", {})
        seen = self.get(day)
        with self.assertRaises(FolderInUse):
            Folder(self.folder)
        self.end()
        self.begin()
        self.assertEqual(self.get(day), seen)

    def test_a_search_goes_on_from_the_routes(self) -> None:
        day = self.made(**{"from": "example", "example": "service-day"})
        first = self.planned(day)
        pinned = first["vehicles"][0]["visits"]
        self.post(f"{day}/change", {"step": 1, "change": {"kind": "pin", "vehicle": 0, "pinned": True}})
        moved = self.post(f"{day}/change", {"step": 2, "change": {"kind": "move", "nodes": [
            first["vehicles"][3]["visits"][-1]], "vehicle": None}})["day"]
        after = self.planned(day)
        self.assertEqual(after["vehicles"][0]["visits"], pinned)
        self.assertLessEqual(after["cost"], moved["cost"])
        self.assertEqual(after["status"], "fine")

    def test_a_search_is_stopped_and_only_so_many_run(self) -> None:
        days = [self.made() for _ in range(3)]
        for day in days:
            self.post(f"{day}/plan", {"seconds": 60})
        time.sleep(0.3)
        states = [self.get(f"{day}/search")["status"] for day in days]
        self.assertEqual((states.count("searching"), states.count("waiting")), (2, 1))
        self.assertIn("a search is at work", self.post(f"{days[0]}/plan", {"seconds": 1}, 422)["error"])
        self.assertIn("stop it first", self.post(f"{days[0]}/undo", {}, 422)["error"])
        began = time.monotonic()
        for day in days:
            self.post(f"{day}/stop", {})
        while any(self.get(f"{day}/search")["status"] in ("searching", "waiting") for day in days):
            time.sleep(0.02)
        self.assertLess(time.monotonic() - began, 3)
        self.assertEqual(self.get(days[0])["cost"], 237)
        for seconds in (0, -1, "x", 4000, True):
            self.post(f"{days[0]}/plan", {"seconds": seconds}, 422)

    def test_tables_are_read_and_refused_at_their_rows(self) -> None:
        places = "name,x,y,demand,open,close\nyard,0,0,,,\nAda,3,4,2,8:00,9:00\n"
        vans = "name,start,capacity\nred,yard,9\n"
        day = self.made(**{"from": "tables", "places": upload("places.csv", places), "vans": upload("vans.csv", vans)})
        seen = self.get(day)
        self.assertEqual((seen["clock"], seen["nodes"][1][:3]), (0, ["Ada", [480, 540], 2]))
        with open(os.path.join(self.folder, seen["id"], "places.csv"), encoding="utf-8") as file:
            self.assertEqual(file.read(), places)
        odd = self.made(**{"from": "tables", "places": upload("p.csv", places + "Depot 2,5,6,,,\n"),
                           "vans": upload("v.csv", vans)})
        self.assertIn("The line is: Depot 2,5,6", self.get(odd)["doubts"][0])
        wrong = self.post("days", {"from": "tables", "places": upload("p.csv", places.replace("3,4", "3,north")),
                                   "vans": upload("v.csv", vans)}, 422)
        self.assertEqual((wrong["line"], wrong["column"]), (3, "y"))
        for tree in ({}, {"from": "tables"}, {"from": "example", "example": "../days"}, {"from": "model", "model": {}},
                     {"from": "model", "model": {"name": "a", "data": "§"}}, {"from": 3}):
            self.post("days", tree, 422)
        self.assertEqual(len(os.listdir(self.folder)), 3)

    def test_a_large_day_is_checked_as_a_whole_soon(self) -> None:
        day = self.made()
        planned = self.planned(day)
        with mock.patch("jambulskeg.desk.days.LARGE", 1):
            change = {"kind": "move", "nodes": [planned["vehicles"][0]["visits"][0]], "vehicle": None}
            self.assertIn(self.post(f"{day}/change", {"step": 1, "change": change})["day"]["status"],
                          ("checking", "unfinished"))
            while self.get(f"{day}/checked")["status"] == "checking":
                time.sleep(0.01)
        self.assertEqual(self.get(f"{day}/checked"), {"step": 2, "status": "unfinished", "notice": ""})

    def test_a_change_completes_the_routes_that_it_changes_alone(self) -> None:
        day = self.made(**{"from": "example", "example": "service-day"})
        with mock.patch("jambulskeg.desk.days.LARGE", 1), mock.patch("jambulskeg.desk.days.MOST_TOUCHED", 1):
            self.planned(day, rounds=1)
            self.change_three(day, 1)
            self.end()
            self.begin()
            self.change_three(day, 2)

    def change_three(self, day: str, number: int) -> None:
        """Makes three changes, by each of which one route becomes another, and sees which were completed for them."""
        seen = self.get(day)
        one, other = [van["visits"] for van in seen["vehicles"] if len(van["visits"]) > 1][:2]
        changes: List[Dict[str, Any]] = [
            {"kind": "move", "nodes": [one[0]], "vehicle": None},
            {"kind": "edit", "node": other[0], "window": [0, 400 + number]},
            {"kind": "edit", "node": other[-1], "demand": number},
        ]
        with mock.patch("jambulskeg.desk.asking.route_of", wraps=route_of) as completed:
            for step, change in enumerate(changes, seen["step"]):
                self.assertTrue(self.post(f"{day}/change", {"step": step, "change": change})["answer"]["made"])
        self.assertEqual([list(call[0][2]) for call in completed.call_args_list], [one[1:], other, other])

    def test_it_is_stopped_while_a_request_comes_in(self) -> None:
        def interrupted(server: DeskServer, request: Any, address: Any) -> None:
            server.process_request_thread(request, address)
            raise KeyboardInterrupt

        with socket.socket() as request:
            with mock.patch("socketserver.ThreadingMixIn.process_request", interrupted):
                self.assertRaises(KeyboardInterrupt, self.server.process_request, request, ("", 0))

    def test_a_model_with_a_clock(self) -> None:
        day = self.made(**{"from": "example", "example": "service-day", "clock": "8:00"})
        self.assertEqual(self.get(day)["clock"], 480)
        begins = [van["begins"][0] for van in self.planned(day)["vehicles"] if van["begins"]]
        self.assertTrue(all(8 <= int(time.split(":")[0]) < 12 for time in begins), begins)
        for clock in ("25:00", "x", "-1", 8):
            self.post("days", {"from": "example", "example": "service-day", "clock": clock}, 422)

    def test_no_text_is_markup(self) -> None:
        places = 'name,x,y,penalty\nyard,0,0,\n"' + MARKUP.replace('"', '""') + '",3,4,5\n'
        vans = 'name,start\n"<b>red</b>",yard\n'
        day = self.made(**{"from": "tables", "name": MARKUP[:60], "places": upload("<i>.csv", places),
                           "vans": upload("v.csv", vans)})
        self.assertEqual(self.get(day)["nodes"][1][0], MARKUP)
        self.planned(day)
        beside = self.get(f"beside/{day[4:]}/0/{day[4:]}/now")["html"]
        for text in (*self.get(f"{day}/charts").values(), beside):
            for mark in ("<script", "<img", "<b>red", "onerror=alert(2)>"):
                self.assertNotIn(mark, text)
        self.assertEqual(beside.count('" data-style="x'), 0)

    def test_days_side_by_side(self) -> None:
        one, other = self.made(), self.made(**{"from": "example", "example": "service-day"})
        self.planned(one)
        self.assertIn("now made", self.get(f"beside/{one[4:]}/0/{one[4:]}/1")["html"])
        self.assertIn("other visits", self.get(f"beside/{one[4:]}/now/{other[4:]}/now")["html"])
        for path in (f"beside/{one[4:]}/9/{one[4:]}/1", f"beside/{one[4:]}/x/{one[4:]}/1", "beside/no/now/no/now"):
            self.assertEqual(self.asked("GET", f"api/{path}")[0], 404)

    def test_offers(self) -> None:
        day = self.made()
        self.planned(day)
        offers = self.get(f"{day}/why/12")["offers"]
        self.assertEqual((offers[0]["extra"] > 0, len(offers)), (True, 3))
        best = self.post(f"{day}/change", {"step": 1, "change": {
            "kind": "move", "nodes": [12], "vehicle": offers[0]["vehicle"], "best": True}})
        self.assertEqual(best["day"]["cost"], 237 + offers[0]["extra"])
        none = self.post(f"{day}/change", {"step": 2, "change": {
            "kind": "move", "nodes": [1], "vehicle": 2, "best": True}})["answer"]
        self.assertEqual((none["made"], none["vehicle"]), (False, 2))
        for node in ("0", "99", "x", "1e3"):
            self.assertEqual(self.asked("GET", f"api/{day}/why/{node}")[0], 404)

    def test_files_for_others(self) -> None:
        day = self.made()
        self.planned(day)
        for kind, ending, begin in (
            ("json", "json", b'{"model"'), ("csv", "csv", b"\xef\xbb\xbfvan"), ("page", "html", b"<!DOCTYPE"),
            ("sheets", "zip", b"PK"), ("geojson", "geojson", b"{"), ("icalendar-2026-12-01", "ics", b"BEGIN:VCALENDAR"),
        ):
            status, headers, data = self.asked("GET", f"api/{day}/export/{kind}")
            self.assertEqual((status, data[:len(begin)]), (200, begin))
            self.assertEqual(headers["Content-Disposition"], f'attachment; filename="{day[4:]}.{ending}"')
        for kind in ("exe", "icalendar-2026-13-01", "icalendar-x"):
            self.assertEqual(self.asked("GET", f"api/{day}/export/{kind}")[0], 404)
        plain = self.made(**{"from": "example", "example": "pickups"})
        for kind in ("geojson", "icalendar-2026-12-01"):
            self.assertIn("asks for", json.loads(self.asked("GET", f"api/{plain}/export/{kind}")[2])["error"])


class ProcessTests(unittest.TestCase):
    """The desk as a process of its own."""

    def setUp(self) -> None:
        folder = tempfile.TemporaryDirectory()
        self.addCleanup(folder.cleanup)
        self.folder = folder.name

    def begun(self) -> "Tuple[subprocess.Popen[str], str]":
        """A desk, and the address that it told."""
        words = [sys.executable, "-W", "error", "-m", "jambulskeg", "desk", self.folder, "--no-browser", "--jobs", "2"]
        process = subprocess.Popen(words, cwd=TOP, stdout=subprocess.PIPE, text=True)
        assert process.stdout is not None
        return process, process.stdout.readline().split()[-1]

    def asked(self, address: str, tree: Any = None) -> Any:
        """What comes back from an address; a tree is posted as the page does."""
        body = None if tree is None else json.dumps(tree).encode()
        headers = {"Origin": "/".join(address.split("/")[:3]), "Content-Type": "application/json"}
        with urllib.request.urlopen(urllib.request.Request(address, body, headers)) as answer:
            return json.load(answer)

    def test_a_killed_desk_opens_as_it_was(self) -> None:
        process, address = self.begun()
        self.asked(f"{address}api/days", {"from": "example", "example": THREE_VANS, "name": "Monday"})
        moved = self.asked(f"{address}api/day/monday/change", {"step": 0, "change": {
            "kind": "move", "nodes": [1, 2], "vehicle": 0}})["day"]
        self.asked(f"{address}api/day/monday/plan", {"seconds": 60})
        process.kill()
        process.communicate()
        process, address = self.begun()
        self.assertEqual(self.asked(f"{address}api/day/monday"), moved)
        self.asked(f"{address}api/day/monday/plan", {"seconds": 60})
        process.send_signal(signal.SIGTERM)
        self.assertEqual((process.communicate()[0], process.returncode), ("Control and C closes it.\n", 0))


class OpenerTests(unittest.TestCase):
    """How the browser is led to the page."""

    def test_nobody_else_reads_the_token(self) -> None:
        with tempfile.TemporaryDirectory() as folder:
            opener = Opener(os.path.join(folder, "open.html"))
            with mock.patch("jambulskeg.desk.command.webbrowser.open") as browser:
                opener.browse("http://127.0.0.1:1/token/")
                opener.browse("http://127.0.0.1:1/token/")
                for thread in threading.enumerate():
                    if thread is not threading.current_thread() and thread.daemon:
                        thread.join(1)
            self.assertTrue(all("token" not in str(call) for call in browser.call_args_list))
            self.assertEqual(os.stat(opener.path).st_mode & 0o777, 0o600)
            with open(opener.path, encoding="ascii") as file:
                self.assertIn("url=http://127.0.0.1:1/token/", file.read())
            opener.close()
            self.assertEqual(os.listdir(folder), [])

    def test_words_of_the_command(self) -> None:
        for words in (["desk", "--port", "65536"], ["desk", "--jobs", "0"], ["desk", "--jobs", "65"]):
            with contextlib.redirect_stderr(io.StringIO()), self.assertRaises(SystemExit):
                main(words)
        with tempfile.TemporaryDirectory() as folder, socket.create_server(("127.0.0.1", 0)) as other:
            words = ["desk", folder, "--no-browser", "--port", str(other.getsockname()[1])]
            with contextlib.redirect_stderr(io.StringIO()) as told:
                self.assertEqual(main(words), 1)
            self.assertIn("cannot be had", told.getvalue())


class GuardTests(DeskTests):
    def forms(self) -> List[Tuple[str, Dict[str, str]]]:
        """Requests that must not be served, as paths and headers."""
        token, host = self.server.guard.token, f"127.0.0.1:{self.port}"
        good = {"Host": host}
        out: List[Tuple[str, Dict[str, str]]] = []
        for path in ("", "api/days", "desk.js", "view.js", "api/day/monday", "api/day/monday/export/csv", "favicon"):
            for word in ("", "x", token[:-1], token + "x", token.upper(), "%2e%2e", "..", token[::-1], "a/" + token):
                out.append((f"/{word}/{path}", good))
            for name in ("evil.example", f"evil.example:{self.port}", "127.0.0.1", f"127.0.0.1:{self.port + 1}", "",
                         f"127.0.0.1.evil.example:{self.port}", f"[::1]:{self.port}", f"0.0.0.0:{self.port}"):
                out.append((f"/{token}/{path}", {"Host": name}))
            for origin in ("null", "http://evil.example", f"https://{host}", f"http://{host}.evil.example",
                           f"http://127.0.0.1:{self.port + 1}", "http://127.0.0.1"):
                out.append((f"/{token}/{path}", {**good, "Origin": origin}))
            for site in ("cross-site", "same-site"):
                out.append((f"/{token}/{path}", {**good, "Sec-Fetch-Site": site}))
            out += [(f"http://{host}/{token}/{path}", good), (f"/{token}", good)]
        for path in ("../", "../../etc/passwd", "api/day/../../etc", "..%2f..%2fetc%2fpasswd", "%2e%2e/", "api//days",
                     "desk/../guard.py", "page/desk.html", "api/day/monday/export/../../journal", "api/day/.desk.lock",
                     "api/days\\..", "api/day/monday%00", "./desk.js", "service.py", "api/day/monday/journal"):
            out.append((f"/{token}/{path}", good))
        return out

    def test_nobody_else_is_served(self) -> None:
        self.made()
        forms = self.forms()
        self.assertGreater(len(forms), 200)
        for target, headers in forms:
            for method in ("GET", "HEAD", "PUT") if headers.get("Sec-Fetch-Site") else ("GET",):
                status, found, data = self.request(method, target, None, headers)
                self.assertIn(status, (400, 403, 404, 405), (target, headers))
                self.assertNotIn(b"Monday", data)
                self.assertNotIn(b"root:", data)
                self.assertNotIn("Access-Control-Allow-Origin", found)
        self.assertEqual(self.get("days")["days"][0]["name"], "Monday")

    def test_the_page_is_opened_from_a_file(self) -> None:
        opened = {"Host": f"127.0.0.1:{self.port}", "Sec-Fetch-Site": "cross-site", "Sec-Fetch-Mode": "navigate"}
        for dest, path, status in (("document", "", 200), ("iframe", "", 403), ("document", "api/days", 403)):
            headers = {**opened, "Sec-Fetch-Dest": dest}
            self.assertEqual(self.request("GET", f"/{self.server.guard.token}/{path}", None, headers)[0], status)

    def test_nobody_else_changes_anything(self) -> None:
        day = self.made()
        token, good = self.server.guard.token, self.own_headers(b"{}")
        for name, value in (("Origin", None), ("Origin", "null"), ("Origin", "http://evil.example"),
                            ("Host", "a.example"),
                            ("Content-Type", "text/plain"),
                            ("Content-Type", "application/x-www-form-urlencoded"),
                            ("Content-Length", None), ("Content-Length", "-1"), ("Content-Length", "x"),
                            ("Content-Length", str(MOST_BYTES + 1)), ("Transfer-Encoding", "chunked")):
            headers = {key: entry for key, entry in {**good, name: value}.items() if entry is not None}
            status, _, data = self.request("POST", f"/{token}/api/{day}/undo", b"{}", headers)
            self.assertIn(status, (400, 403, 411, 413, 415), (name, value, data))
        self.assertEqual(self.request("OPTIONS", f"/{token}/api/days", None, good)[0], 405)
        self.assertEqual(self.get(day)["step"], 0)

    def test_bodies_that_are_none(self) -> None:
        day = self.made()
        token = self.server.guard.token
        for body in (b"", b"{", b"[]", b"3", b"null", b'{"step":NaN}', b"\xff\xfe", b"[" * 100000, b'"' + b"a" * 99):
            status, _, data = self.request("POST", f"/{token}/api/{day}/change", body, self.own_headers(body))
            self.assertEqual(status, 400, (body[:20], data))
        for tree in ({}, {"step": 0}, {"step": 0, "change": 3}, {"step": "0", "change": {"kind": "pin"}}):
            self.post(f"{day}/change", tree, 422)
        head = f"POST /{token}/api/{day}/undo HTTP/1.1\r\nHost: 127.0.0.1:{self.port}\r\n" \
               f"Origin: http://127.0.0.1:{self.port}\r\nContent-Type: application/json\r\nContent-Length: 99\r\n\r\n"
        self.assertIn(b"400", self.raw(head.encode() + b'{"a":')[:20])
        for data in (b"", b"GET", b"\x00" * 50, b"GET / HTTP/9.9\r\n\r\n", b"GET /\r\n\r\n", b"A" * 70000,
                     b"GET / HTTP/1.1\r\nHost: a\r\nHost: b\r\n\r\n",
                     b"GET / HTTP/1.1\r\n" + b"a: b\r\n" * 200 + b"\r\n"):
            self.assertNotIn(b" 200 ", self.raw(data)[:20])
        self.assertEqual(self.get(day)["step"], 0)

    def test_its_answers_are_closed_to_others(self) -> None:
        status, headers, data = self.asked("GET", "")
        self.assertEqual(status, 200)
        self.assertIn("default-src 'none'; script-src 'self'; style-src 'self'", headers["Content-Security-Policy"])
        self.assertEqual((headers["X-Content-Type-Options"], headers["Referrer-Policy"], headers["X-Frame-Options"]),
                         ("nosniff", "no-referrer", "DENY"))
        for mark in (b"<style", b" style=", b"onclick", b"http://"):
            self.assertNotIn(mark, data)
        self.assertEqual(self.server.socket.getsockname()[0], "127.0.0.1")

    def test_many_at_once(self) -> None:
        day = self.made()
        token, rng = self.server.guard.token, random.Random(3)
        found: List[int] = []

        def ask(number: int) -> None:
            kind, body = number % 5, json.dumps({"step": 0, "change": {
                "kind": "move", "nodes": [rng.randint(1, 12)], "vehicle": number % 3}}).encode()
            try:
                if kind == 0:
                    found.append(self.request("POST", f"/{token}/api/{day}/change", body, self.own_headers(body))[0])
                elif kind == 1:
                    found.append(self.request("POST", f"/x/api/{day}/change", body, self.own_headers(body))[0])
                elif kind == 2:
                    self.raw(f"POST /{token}/api/{day}/undo HTTP/1.1\r\nHost: 127.0.0.1:{self.port}\r\n".encode())
                elif kind == 3:
                    found.append(self.request("GET", f"/{token}/api/days", None, self.own_headers(None))[0])
                else:
                    found.append(self.request("GET", f"/{token}/../x", None, self.own_headers(None))[0])
            except OSError:
                found.append(0)

        threads = [threading.Thread(target=ask, args=(number,)) for number in range(200)]
        for thread in threads:
            thread.start()
        for thread in threads:
            thread.join()
        self.assertEqual((found.count(500), found.count(0)), (0, 0))
        self.assertEqual((found.count(403), found.count(404)), (40, 40))
        with open(os.path.join(self.folder, "monday", "journal"), "rb") as file:
            data = file.read()
        self.assertEqual(lines_read(data)[1], len(data))
        self.assertEqual(self.get(day)["step"], 1)

    def test_a_slow_request_does_not_hold_the_others(self) -> None:
        with socket.create_connection(("127.0.0.1", self.port)) as slow:
            slow.sendall(b"GET /")
            self.assertEqual(self.get("days")["examples"][0], THREE_VANS)


class PowerTests(DeskTests):
    def test_cut_at_each_byte_of_the_journal(self) -> None:
        day_path = self.made()
        for node, vehicle in ((1, 0), (2, 1), (3, 2)):
            change = {"kind": "move", "nodes": [node], "vehicle": vehicle}
            self.post(f"{day_path}/change", {"step": node - 1, "change": change})
        self.post(f"{day_path}/undo", {})
        self.end()
        path = os.path.join(self.folder, "monday", "journal")
        with open(path, "rb") as file:
            data = file.read()
        first = data.index(b"\n") + 1
        for length in range(first, len(data) + 1, 3):
            with open(path, "wb") as file:
                file.write(data[:length])
            entries, _ = lines_read(data[:length])
            folder = Folder(self.folder)
            try:
                day = OpenDay("monday", *folder.opened("monday"), Program.found())
                day.close()
                self.assertEqual(day.journal.entries, entries)
                numbers = [entry["number"] for entry in entries if entry["do"] in ("step", "at")]
                self.assertEqual(day.at, numbers[-1] if numbers else 0)
                self.assertEqual(folder.told("monday")["steps"], sum(entry["do"] == "step" for entry in entries))
            finally:
                folder.close()

    def test_half_a_new_day_is_none(self) -> None:
        self.end()
        for name, file in ((".desk-new-abc", "model.json.part"), (".desk-new-own", "letter"), ("notes", "journal.txt")):
            os.mkdir(os.path.join(self.folder, name))
            with open(os.path.join(self.folder, name, file), "w", encoding="ascii"):
                pass
        self.begin()
        self.assertEqual(self.get("days")["days"], [])
        self.assertEqual(sorted(os.listdir(self.folder)), [".desk-new-own", ".desk.lock", "notes"])
        self.assertTrue(os.path.isdir(EXAMPLES))


if __name__ == "__main__":
    unittest.main()
