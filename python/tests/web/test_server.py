"""The server of the page: its answers, the fields of refusals, foreign requests, and faults of all kinds."""

import http.client
import json
import os
import select
import signal
import socket
import socketserver
import subprocess
import sys
import tempfile
from collections.abc import Callable, Iterator
from concurrent.futures import ThreadPoolExecutor
from contextlib import contextmanager, suppress
from pathlib import Path
from threading import Thread
from time import sleep
from typing import Any

import pytest

from rtdvs.cli import serve as command
from rtdvs.cli.main import main
from rtdvs.engine import Answer, Call, Engine
from rtdvs.errors import BadRequest
from rtdvs.model import Machine, TaskSet
from rtdvs.studies import PAIRS
from rtdvs.web import (
    SCRIPTS, PageServer, answer_of, answers, example, example_of, examples, field_of, read_example,
    server as serve,
)
from tests.shared.examples import DATA, SOURCE, WORKED, Captured, rows, fake, files, refusal, serving
from tests.shared.simulated import Simulated

PAPER_FOLDER = DATA / "paper"
PATIENCE = serve.PATIENCE


@pytest.fixture(autouse=True)
def patience(monkeypatch: pytest.MonkeyPatch) -> None:
    """A busy machine makes no request late; a test of those that are has a short patience of its own."""
    monkeypatch.setattr(serve, "PATIENCE", 900.0)


def paper(**changes: str) -> dict[str, Any]:
    """The editor's fields for the paper's example, some with another text: tasks_0_period="9"."""
    example: dict[str, Any] = {**read_example(PAPER_FOLDER)}
    for name, text in changes.items():
        table, *rest = name.split("_")
        if rest:
            example[table][int(rest[0])][rest[1]] = text
        else:
            example[table] = text
    return example


def answered(engine: Engine, example: object, path: str = "/run") -> tuple[int, Any]:
    status, answer = answer_of(path, example_of(json.dumps(example).encode()), engine)
    return status.value, json.loads(json.dumps(answer))


def stand_in(folder: Path, script: str, timeout: float = 60.0) -> Engine:
    """A program in place of rtdvs, which a test's fault is in."""
    return Engine(fake(folder, script), timeout)


# Answers

def test_run(engine: Engine) -> None:
    """The trace is that of the files, and the files are those of the example."""
    tasks, machine, demands = files("paper")
    status, answer = answered(engine, paper())
    assert status == 200
    assert answer["files"]["trace"] == engine.run(tasks, machine, "edf", "cc", 16, demands).text()
    assert TaskSet.parse(answer["files"]["tasks"]) == tasks
    assert Machine.parse(answer["files"]["machine"]) == machine
    assert answer["data"]["sheets"][0]["title"] == "edf cc, 16 ticks"


def test_compare(engine: Engine) -> None:
    status, answer = answered(engine, paper(), "/compare")
    assert status == 200 and answer["heading"][:3] == ["scheduler", "governor", "energy"]
    assert [tuple(row[:2]) for row in answer["rows"]] == list(PAIRS)
    assert [row[2] for row in answer["rows"]][:4] == [f"{energy}000000000" for energy in (700, 448, 364, 315)]


START: Any = example.START["example"]
MENU = {str(each["name"]): each for each in examples()}


@pytest.mark.parametrize("name", ["paper", "controller", "ahead", "offsets"])
def test_examples_of_the_menu(name: str, engine: Engine) -> None:
    """The files of a folder are those of its example, which runs and has a sentence."""
    fields = example_of(json.dumps(MENU[name]["example"]).encode())
    assert fields.parsed()[:2] == files(name)[:2] and str(MENU[name]["about"]).endswith(".")
    refused = answered(engine, MENU[name]["example"])[1].get("refused")
    assert refused is None or refused.startswith("denied")


def test_the_menu_has_no_test_s_files() -> None:
    """Those of `long` have 60 lines of comment between two tasks; `server` and `deadlines` need more files than these.
    Without the repository there is one."""
    assert [*MENU] == ["paper", "controller", "ahead", "offsets", "late"]
    _, answer = answered(Simulated(Path("simulated")), START)
    assert answer["data"]["sheets"][0]["title"] == "edf cc, 20 ticks"


REFUSED = rows("refused_examples")


@pytest.mark.parametrize(("field", "line", "changes"), REFUSED, ids=[line for _, line, _ in REFUSED])
def test_refusal_names_its_field(field: str, line: str, changes: str, engine: Engine) -> None:
    """The files of the fields are there all the same."""
    fields = paper(**json.loads(changes))
    status, answer = answered(engine, fields)
    assert (status, answer["refused"], answer["field"]) == (200, line, field)
    assert answer["files"] == example_of(json.dumps(fields).encode()).files()


@pytest.mark.parametrize(("field", "changes"), [
    pytest.param("points.1.millivolts", {"points_1_millivolts": "2999"}, id="lower voltage"),
    pytest.param("points.1.speed", {"points_1_speed": "2"}, id="same speed"),
    pytest.param("points.1.speed", {"points_1_speed": "1", "points_1_millivolts": "1"}, id="both fall"),
    pytest.param("tasks.0.period", {"tasks_0_period": "9" * 1000}, id="thousand digits"),
    pytest.param("tasks.0.name", {"tasks_0_name": "a\x7f", "demands": []}, id="delete"),
])
def test_field_of_a_refusal_of_the_package(field: str, changes: dict[str, str]) -> None:
    assert answered(Simulated(Path("simulated")), paper(**changes))[1]["field"] == field


@pytest.mark.parametrize("changes", [{"tasks_1_period": "8 ms"}, {"ticks": "0"}, {"ticks": "100000"}], ids=str)
def test_refusal_of_a_comparison(changes: dict[str, str], engine: Engine) -> None:
    """It names the same field."""
    _, run = answered(engine, paper(**changes))
    _, compared = answered(engine, paper(**changes), "/compare")
    assert run["field"] == compared["field"] != ""


@pytest.mark.parametrize("sent", [
    None, [], 1, "paper", {}, {"tasks": "ab"}, {"tasks": [1]}, paper() | {"tasks": {"a": 1}}, paper(ticks="1\0"),
    paper(ticks="\ud800"), paper() | {"ticks": 16}, paper(ticks="1" * 1001), paper() | {"page": 1},
    paper() | {"page": "1" * 1001}], ids=range(14))
def test_no_example(sent: object, tmp_path: Path) -> None:
    """What isn't an example calls nothing."""
    with pytest.raises(BadRequest, match="^not an example$"):
        example_of(json.dumps(sent).encode())
    with serving(stand_in(tmp_path, f"touch {tmp_path}/called")) as server:
        status, answer = asked(server, "POST", "/run", json.dumps(sent).encode())
    assert (status, json.loads(answer)) == (400, {"refused": "not an example", "field": ""})
    assert not (tmp_path / "called").exists()


@pytest.mark.parametrize("body", [b"", b"{", b"\xff", b"[" * 100_000])
def test_no_json(body: bytes) -> None:
    with pytest.raises(BadRequest, match="^not an example$"):
        example_of(body)


@pytest.mark.parametrize(("ticks", "line"), [
    pytest.param("9999", "denied edf 2 1", id="10000 jobs"),
    pytest.param("10000", "limit: 10001 jobs, at most 10000", id="a job more")])
def test_a_run_has_at_most_10000_jobs(ticks: str, line: str, tmp_path: Path) -> None:
    """The program, which is asked for the first run only, refuses all."""
    fields = START | {"tasks": [{"name": "a", "period": "1", "worst": "1"}], "ticks": ticks}
    engine = stand_in(tmp_path, f"touch {tmp_path}/called; echo denied edf 2 1 >&2; exit 1")
    assert answered(engine, fields)[1]["refused"] == line
    assert (tmp_path / "called").exists() == line.startswith("denied")


def test_field_of_an_unknown_line() -> None:
    assert field_of(ValueError("anything"), example_of(json.dumps(paper()).encode())) == ""


# A set that isn't admitted

LATE = START | {"scheduler": "rm", "governor": "none"}
SIMULATED = Simulated(Path("simulated"))


@pytest.mark.parametrize(("fields", "line", "meaning"), [
    pytest.param(paper(tasks_2_worst="40"), "denied edf 1556 1120",
                 "The tasks ask for 5.56 units a tick, and the highest speed is 4. This is 1.39 times the work of the highest "
                 "speed. Lower worst cases, lengthen periods, or add a faster point.", id="edf"),
    pytest.param(paper(scheduler="rm", tasks_2_worst="20"), "denied rm t3 68 56",
                 "In a period of `t3`, it and the tasks with shorter periods ask for 68 units; the highest speed does 56. "
                 "`response` is the exact test, and `edf` admits more.", id="rm")])
def test_a_denial_says_what_it_means(fields: Any, line: str, meaning: str) -> None:
    """By hand: 12 * 35 + 12 * 28 + 40 * 20 = 1556 units in 280 ticks. Under RM two jobs of t1, two of t2 and one of t3
    in 14 ticks: 24 + 24 + 20."""
    status, answer = answered(SIMULATED, fields)
    assert (status, answer["refused"], answer["meaning"], answer["offer"]) == (200, line, meaning, True)


def test_another_refusal_says_what_is_wrong() -> None:
    """As below a refusal of a command; it offers no run."""
    answer = answered(SIMULATED, paper(points_1_speed="2"))[1]
    assert answer["refused"] == "machine: point 2: not rising" and "offer" not in answer
    assert answer["meaning"] == (
        "Speed 2 with 4000 mV comes after 2 with 3000 mV. Each point needs a higher speed than the one before, and no "
        "fewer millivolts.")


def test_the_run_all_the_same() -> None:
    """It is the package's, and says so; b has 8 of its 9 units by tick 5 and again by tick 10. It is explained."""
    status, answer = answered(SIMULATED, LATE | {"admission": "none"})
    (sheet,) = answer["data"]["sheets"]
    assert status == 200 and sheet["title"] == "rm none-drop, 20 ticks, not admitted"
    assert sheet["note"].startswith("This run is the package's, not the program's, which says: denied rm b 25 20.")
    released, done = ([line.split()[2:] if word == "release" else line.split()[2:4]
                       for line in answer["files"]["trace"].splitlines() if line.startswith(word)]
                      for word in ("release", "done"))
    assert [job for job in released if job not in done] == [["b", "1"], ["b", "2"]]
    assert sheet["boards"] and sheet["left"] == ""


def test_only_the_run_of_a_denied_pair_is_the_package_s() -> None:
    """EDF admits the set: 8 * 5 + 9 * 4 = 76 units of 80 in 20 ticks."""
    _, answer = answered(SIMULATED, LATE | {"scheduler": "edf", "beside": "rm none", "admission": "none"})
    first, second = answer["data"]["sheets"]
    assert (first["title"], first["note"]) == ("A: edf none, 20 ticks", "")
    assert second["title"] == "B: rm none-drop, 20 ticks, not admitted" and second["note"]


def test_a_set_that_is_admitted_is_the_program_s_run() -> None:
    _, asked_for = answered(SIMULATED, paper() | {"admission": "none"})
    assert asked_for == answered(SIMULATED, paper())[1]


@pytest.mark.parametrize(("units", "refused"), [("50%", None), ("101 %", "over worst: t1 1 13 12")])
def test_demands_are_shares_too(units: str, refused: str | None) -> None:
    """Half of 12 is 6; 101 of a hundred are 12.12, which is rounded up."""
    _, answer = answered(SIMULATED, paper(demands_0_units=units))
    assert answer.get("refused") == refused
    assert refused or answer["files"]["demands"].splitlines()[1] == "t1,1,6"


# A program with a fault, and faults of the server

FAULTS = [
    ("exit 9", "no memory", 502), ("exit 3", "status 3", 502), ("kill -9 $$", "the program was ended by signal 9", 502),
    ("echo what", "line 1: neither trace 1 nor trace 2", 500),
    (f"head -n 9 {WORKED}", "line 10: the trace ends before its end line", 500),
    ("sleep 100 & sleep 100", "no answer within 1.0 seconds", 502),
    ("exit 77", "the program ended with status 77", 502),
]


@pytest.mark.parametrize(("script", "line", "status"), FAULTS, ids=[script[:16] for script, _, _ in FAULTS])
def test_fault_of_the_program(script: str, line: str, status: int, tmp_path: Path, calls: Path,
                              capsys: Captured) -> None:
    """It has an answer with its words, which are on standard error, and leaves neither a process nor a file."""
    engine = stand_in(tmp_path, script, 1.0 if "sleep" in script else 60.0)
    found, answer = answered(engine, paper())
    assert found == status and line in answer["refused"] and answer["field"] == ""
    assert capsys.readouterr().err == f"rtdvs: serve: {answer['refused']}\n"
    assert_nothing_left(calls)


class Altered(Simulated):
    """A program that adds one to the energy of the first run."""

    def answer(self, call: Call[Any]) -> Answer:
        found = super().answer(call)
        return Answer(found.status, found.out.replace(b" 128000000000\n", b" 128000000001\n", 1), found.notes)


def test_wrong_trace_of_the_program(capsys: Captured) -> None:
    """It isn't said of the example. By hand: t1 runs 8 units and 4 at 4000 mV, each for 16000000000."""
    status, answer = answered(Altered(Path("altered")), paper())
    assert status == 500 and answer["refused"].endswith(" the run lines of t1 add up to 192000000001")
    assert capsys.readouterr().err == f"rtdvs: serve: {answer['refused']}\n"


@pytest.mark.parametrize(("fault", "line"), [
    pytest.param(KeyError("speed"), "KeyError: 'speed'", id="key"),
    pytest.param(ValueError("not an example"), "ValueError: not an example", id="value"),
    pytest.param(MemoryError(), "MemoryError: ", id="memory"),
    pytest.param(RecursionError("too deep"), "RecursionError: too deep", id="recursion"),
    pytest.param(OSError(28, "No space left on device", "/tmp/a"), "/tmp/a: No space left on device", id="full"),
])
def test_fault_of_the_server(fault: Exception, line: str, monkeypatch: pytest.MonkeyPatch, capsys: Captured) -> None:
    """It is the server's, and its place is on standard error."""

    def broken(*words: object) -> None:
        raise fault

    monkeypatch.setattr(answers, "page_data", broken)
    with serving(SIMULATED) as server:
        status, answer = asked(server, "POST", "/run", BODY)
    assert (status, json.loads(answer)) == (500, {"refused": line, "field": ""})
    said = capsys.readouterr().err
    assert said.startswith(f"rtdvs: serve: {line}\n") and ("in broken" in said) == isinstance(
        fault, (KeyError, ValueError, RecursionError))


def test_fault_before_the_call(monkeypatch: pytest.MonkeyPatch, capsys: Captured) -> None:
    """Whatever breaks, the browser has an answer."""
    monkeypatch.setattr(serve, "example_of", int)
    with serving(SIMULATED) as server:
        status, answer = asked(server, "POST", "/run", BODY)
    assert status == 500 and json.loads(answer)["refused"].startswith("ValueError: invalid literal for int")
    assert capsys.readouterr().err.startswith("rtdvs: serve: ValueError: invalid literal for int")


FULL = OSError(28, "No space left on device", "/tmp/rtdvs-1/4")


@pytest.mark.parametrize(("folder", "line"), [
    pytest.param("full", "/tmp/rtdvs-1/4: No space left on device", id="full"),
    pytest.param("absent", ": No such file or directory", id="absent")])
def test_no_temporary_folder(folder: str, line: str, tmp_path: Path, monkeypatch: pytest.MonkeyPatch,
                             capsys: Captured) -> None:
    def refused(path: Path, content: bytes) -> int:
        raise FULL

    if folder == "full":
        monkeypatch.setattr(Path, "write_bytes", refused)
    else:
        monkeypatch.setattr(tempfile, "tempdir", str(tmp_path / "absent"))
    with serving(stand_in(tmp_path, "exit 1")) as server:
        status, answer = asked(server, "POST", "/run", BODY)
    assert status == 500 and json.loads(answer)["refused"].endswith(line)
    assert capsys.readouterr().err == f"rtdvs: serve: {json.loads(answer)['refused']}\n"


def test_no_program(tmp_path: Path) -> None:
    status, answer = answered(Engine(tmp_path / "absent"), paper())
    assert status == 502 and answer["refused"] == f"{tmp_path}/absent: No such file or directory"


@pytest.fixture(autouse=True)
def calls(tmp_path: Path, monkeypatch: pytest.MonkeyPatch) -> Path:
    """The folder in which calls make theirs."""
    folder = tmp_path / "calls"
    folder.mkdir()
    monkeypatch.setattr(tempfile, "tempdir", str(folder))
    return folder


def assert_nothing_left(folder: Path) -> None:
    """No file of a call, and no process of a program in the folder above; a killed one ends in a moment."""
    assert [*folder.iterdir()] == []
    until(lambda: processes(str(folder.parent)) == [])


def processes(word: str) -> list[str]:
    """The processes with that word among their arguments."""
    found = []
    for path in Path("/proc").glob("[0-9]*/cmdline"):
        try:
            words = path.read_bytes().decode(errors="replace")
        except OSError:
            continue
        if word in words and int(path.parent.name) != os.getpid():
            found.append(words)
    return found


# Requests

@pytest.fixture
def server(tmp_path: Path) -> Iterator[PageServer]:
    """A server of a program that takes a moment and then refuses."""
    engine = stand_in(tmp_path, "sleep 0.05; echo 'denied edf 2 1' >&2; exit 1")
    with serving(engine) as server:
        yield server


def asked(server: PageServer, method: str, path: str, body: bytes = b"", **headers: str) -> tuple[int, bytes]:
    """The status and the body of an answer; Host is the server's own unless given."""
    connection = http.client.HTTPConnection("127.0.0.1", server.port, timeout=60)
    given = {"Content-Type": "application/json"} | {name.replace("_", "-"): text for name, text in headers.items()}
    with suppress(ConnectionError):  # of a refusal that comes before all is sent
        connection.request(method, path, body or None, given)
    answer = connection.getresponse()
    content = answer.read()
    connection.close()
    return answer.status, content


def sent(server: PageServer, text: bytes) -> bytes:
    """What the server answers to some bytes, until it closes."""
    with socket.create_connection(("127.0.0.1", server.port), timeout=60) as connection:
        connection.sendall(text)
        return b"".join(iter(lambda: connection.recv(2**16), b""))


BODY = json.dumps(paper()).encode()


def test_listens_here_only(server: PageServer) -> None:
    assert server.server_address[0] == "127.0.0.1"


@pytest.mark.parametrize(("path", "kind"), [("/", "text/html"), ("/page.css", "text/css"),
                                            *((f"/{name}", "text/javascript") for name in SCRIPTS)])
def test_files_and_their_policy(server: PageServer, path: str, kind: str) -> None:
    connection = http.client.HTTPConnection("127.0.0.1", server.port, timeout=60)
    connection.request("GET", path)
    answer = connection.getresponse()
    assert answer.status == 200 and answer.getheader("Content-Type") == f"{kind}; charset=utf-8"
    policy = str(answer.getheader("Content-Security-Policy"))
    assert "default-src 'none'; script-src 'self';" in policy and "unsafe" not in policy
    assert answer.getheader("X-Content-Type-Options") == "nosniff" and answer.read()
    assert (answer.getheader("Referrer-Policy"), answer.getheader("Cache-Control")) == ("no-referrer", "no-store")
    connection.close()


POLICY = ("default-src 'none'; script-src 'self'; style-src 'self'; connect-src 'self'; base-uri 'none'; "
          "form-action 'none'; frame-ancestors 'none'")
"""Nothing from elsewhere, nothing in line, no other base, no form, in no frame."""


@pytest.mark.parametrize(("path", "host", "status"), [
    pytest.param("/page.js", "127.0.0.1", 200, id="file"), pytest.param("/run", "127.0.0.1", 200, id="call"),
    pytest.param("/none", "127.0.0.1", 404, id="no file"), pytest.param("/run", "evil.example", 421, id="host"),
])
def test_headers_of_each_answer(server: PageServer, path: str, host: str, status: int) -> None:
    connection = http.client.HTTPConnection("127.0.0.1", server.port, timeout=60)
    connection.request("POST" if path == "/run" else "GET", path, BODY if path == "/run" else None,
                       {"Content-Type": "application/json", "Host": f"{host}:{server.port}"})
    answer = connection.getresponse()
    found = {name: value for name, value in answer.getheaders() if name not in ("Server", "Date")}
    assert answer.status == status and int(found.pop("Content-Length")) == len(answer.read())
    assert found.pop("Content-Type").endswith("; charset=utf-8")
    assert found == {"Content-Security-Policy": POLICY, "X-Content-Type-Options": "nosniff",
                     "Referrer-Policy": "no-referrer", "Cross-Origin-Resource-Policy": "same-origin",
                     "Cache-Control": "no-store", "Connection": "close"}
    connection.close()


@pytest.mark.parametrize("host", ["evil.example", "127.0.0.1", "127.0.0.1:1", "localhost", "0.0.0.0", ""])
def test_foreign_host(server: PageServer, host: str) -> None:
    assert asked(server, "GET", "/", Host=host)[0] == 421
    assert asked(server, "POST", "/run", BODY, Host=host)[0] == 421


def test_two_hosts(server: PageServer) -> None:
    text = f"GET / HTTP/1.1\r\nHost: 127.0.0.1:{server.port}\r\nHost: evil.example\r\n\r\n"
    assert sent(server, text.encode()).split()[1] == b"421"


@pytest.mark.parametrize("origin", ["http://evil.example", "null", "https://127.0.0.1", "http://127.0.0.1:1"])
def test_foreign_origin(server: PageServer, origin: str) -> None:
    assert asked(server, "POST", "/run", BODY, Origin=origin)[0] == 403


def test_own_origin(server: PageServer) -> None:
    for host in (f"127.0.0.1:{server.port}", f"localhost:{server.port}"):
        status, answer = asked(server, "POST", "/run", BODY, Host=host, Origin=f"http://{host}")
        assert (status, json.loads(answer)["refused"]) == (200, "denied edf 2 1")


@pytest.mark.parametrize(("method", "path", "status"), [
    ("GET", "/absent", 404), ("GET", "/../pyproject.toml", 404), ("GET", "/page.py", 404), ("GET", "/run", 404),
    ("POST", "/", 404), ("PUT", "/run", 501), ("OPTIONS", "/run", 501)])
def test_other_paths_and_methods(server: PageServer, method: str, path: str, status: int) -> None:
    assert asked(server, method, path)[0] == status


def test_another_kind_of_body(server: PageServer) -> None:
    """A form of another site can send only such ones."""
    assert asked(server, "POST", "/run", BODY, Content_Type="text/plain")[0] == 415


def test_too_long_a_body(server: PageServer) -> None:
    assert asked(server, "POST", "/run", b" " * (2**20 + 1))[0] == 413
    assert asked(server, "POST", "/run", BODY.ljust(2**20))[0] == 200


def head(server: PageServer, *more: str) -> bytes:
    lines = ["POST /run HTTP/1.1", f"Host: 127.0.0.1:{server.port}", "Content-Type: application/json", *more]
    return "\r\n".join([*lines, "", ""]).encode()


def test_length_that_is_none(server: PageServer) -> None:
    for more in ((), ("Content-Length: -1",), ("Content-Length: 1", "Content-Length: 2")):
        assert sent(server, head(server, *more)).split()[1] == b"411"


def test_half_a_request(server: PageServer, monkeypatch: pytest.MonkeyPatch) -> None:
    """Half a body, half of the first lines, or nothing: each has its answer when the server's patience ends."""
    monkeypatch.setattr(serve, "PATIENCE", 0.5)
    whole = head(server, f"Content-Length: {len(BODY)}") + BODY
    for text in (whole[:-10], whole[:30], b""):
        assert sent(server, text).split()[1] == b"408"


@pytest.mark.parametrize("part", ["lines", "body", "what is refused"])
def test_a_request_that_drips(part: str, server: PageServer, monkeypatch: pytest.MonkeyPatch) -> None:
    """The patience is for the whole request: an answer comes before its last byte, which is 20 patiences away."""
    monkeypatch.setattr(serve, "PATIENCE", 0.5)
    path = b"/none" if part == "what is refused" else b"/run"
    first = b"" if part == "lines" else head(server, "Content-Length: 1000").replace(b"/run", path)
    with socket.create_connection(("127.0.0.1", server.port), timeout=60) as connection:
        connection.sendall(first)
        for count in range(100):
            try:
                connection.sendall(b"X")
            except ConnectionError:
                break
            if select.select([connection], [], [], 0.1)[0] and not connection.recv(2**16):
                break
        assert count < 90


def test_dripping_connections_stop_no_other(server: PageServer) -> None:
    """However patient the server is, a request that comes takes the place of the oldest that hasn't."""
    connections = [socket.create_connection(("127.0.0.1", server.port), timeout=60) for _ in range(200)]
    for connection in connections:
        with suppress(ConnectionError):
            connection.sendall(head(server)[:40])
    assert [asked(server, "POST", "/run", BODY)[0] for _ in range(3)] == [200, 200, 200]
    assert asked(server, "GET", "/")[0] == 200
    assert connections[0].recv(2**10).split()[1] == b"503"
    for connection in connections:
        connection.close()


def test_at_most_64_requests_at_a_time(tmp_path: Path) -> None:
    """One that has come whole keeps its place: of 70 six are refused, and the others wait for their turn."""
    script = f"until [ -e {tmp_path}/end ]; do sleep 0.05; done; echo 'denied edf 2 1' >&2; exit 1"
    engine = Engine(fake(tmp_path, script))
    with serving(engine) as server, ThreadPoolExecutor(70) as executor:
        found = [executor.submit(asked, server, "POST", "/run", BODY) for _ in range(70)]
        until(lambda: sum(each.done() for each in found) == 6)
        (tmp_path / "end").touch()
        assert sorted(each.result()[0] for each in found) == [200] * 64 + [503] * 6


def test_browser_that_leaves(server: PageServer) -> None:
    """It leaves in the middle of its call; the server then answers others."""
    for _ in range(5):
        with socket.create_connection(("127.0.0.1", server.port)) as connection:
            connection.sendall(head(server, f"Content-Length: {len(BODY)}") + BODY)
    assert asked(server, "POST", "/run", BODY)[0] == 200


def test_a_hundred_requests_at_once(server: PageServer, calls: Path) -> None:
    """Each has an answer: the program's, or that the server is busy."""
    with ThreadPoolExecutor(100) as executor:
        statuses = [*executor.map(lambda _: asked(server, "POST", "/run", BODY)[0], range(100))]
    assert set(statuses) <= {200, 503} and statuses.count(200) >= 4
    assert_nothing_left(calls)


def test_calls_at_a_time(tmp_path: Path) -> None:
    """No more than the stated number runs at once."""
    script = f"""mkdir -p {tmp_path}/now; touch {tmp_path}/now/$$; ls {tmp_path}/now | wc -l >> {tmp_path}/counts
sleep 0.2; rm {tmp_path}/now/$$; echo 'denied edf 2 1' >&2; exit 1"""
    with serving(stand_in(tmp_path, script)) as server, ThreadPoolExecutor(16) as executor:
        statuses = [*executor.map(lambda _: asked(server, "POST", "/run", BODY)[0], range(16))]
    counts = [int(line) for line in (tmp_path / "counts").read_text().split()]
    assert 200 in statuses and 2 <= max(counts) <= 4


# A newer call of a page

WAITING = """n=$(ls {0}/begun | wc -l); mkdir {0}/begun/$$
[ $n -ge {1} ] || until [ -e {0}/end ]; do sleep 0.05; done; echo 'denied edf 2 1' >&2; exit 1"""


def waiting(folder: Path, count: int) -> Engine:
    """A program whose first calls wait until there is a file `end`."""
    (folder / "begun").mkdir()
    return Engine(fake(folder, WAITING.format(folder, count)))


def of_page(name: str) -> bytes:
    return json.dumps(paper() | {"page": name}).encode()


def until(condition: Callable[[], bool]) -> None:
    for _ in range(1200):
        if condition():
            return
        sleep(0.05)
    raise AssertionError("nothing in a minute")


def test_a_newer_call_ends_the_older_one_s_program(tmp_path: Path, calls: Path, capsys: Captured) -> None:
    """That of the same page: those of another page and of none go on. Nothing is said of it."""
    with serving(waiting(tmp_path, 3)) as server, ThreadPoolExecutor(4) as executor:
        older, other, none = (executor.submit(asked, server, "POST", "/run", of_page(page)) for page in ("a", "b", ""))
        until(lambda: len([*(tmp_path / "begun").iterdir()]) == 3)
        assert asked(server, "POST", "/run", of_page("a"))[0] == 200
        assert older.result()[0] == 409 and not other.done() and not none.done()
        (tmp_path / "end").touch()
        assert (other.result()[0], none.result()[0]) == (200, 200)
    assert capsys.readouterr().err == ""
    assert_nothing_left(calls)


def test_a_newer_call_takes_the_turn_of_the_older_one(tmp_path: Path, monkeypatch: pytest.MonkeyPatch) -> None:
    """Also of one that waits still, while another page has the only turn."""
    monkeypatch.setattr(serve, "MOST_CALLS", 1)
    with serving(waiting(tmp_path, 1)) as server, ThreadPoolExecutor(3) as executor:
        other = executor.submit(asked, server, "POST", "/run", of_page("b"))
        until(lambda: len([*(tmp_path / "begun").iterdir()]) == 1)
        older = executor.submit(asked, server, "POST", "/run", of_page("a"))
        until(lambda: any(visit.page == "a" for visit in server.visits))
        newer = executor.submit(asked, server, "POST", "/run", of_page("a"))
        assert older.result()[0] == 409 and not other.done() and not newer.done()
        (tmp_path / "end").touch()
        assert (other.result()[0], newer.result()[0]) == (200, 200)
    assert len([*(tmp_path / "begun").iterdir()]) == 2


# The end

def test_closing_waits_for_nothing(tmp_path: Path, calls: Path, monkeypatch: pytest.MonkeyPatch) -> None:
    """Neither for bytes, nor for a program, nor for a turn; the programs are ended."""
    monkeypatch.setattr(serve, "CLOSING", 60.0)
    with serving(stand_in(tmp_path, "sleep 900", timeout=900.0)) as server:
        whole = head(server, f"Content-Length: {len(BODY)}") + BODY
        texts = [whole] * 8 + [b"", whole[:30], whole[:-10]] * 4
        connections = [socket.create_connection(("127.0.0.1", server.port), timeout=60) for _ in texts]
        for connection, text in zip(connections, texts, strict=True):
            connection.sendall(text)
        until(lambda: len([*calls.iterdir()]) == 4 and len(server.visits) == len(texts))
        closing = Thread(target=server.server_close, daemon=True)
        closing.start()
        closing.join(30)
        assert not closing.is_alive() and server.visits == []
    assert_nothing_left(calls)


# The command

class Served(Exception):
    """The engine of a server that isn't started."""


@pytest.mark.parametrize(("words", "seconds"), [
    pytest.param([], 10.0, id="without"), pytest.param(["--timeout", "3"], 3.0, id="asked for"),
])
def test_each_call_has_a_limit(words: list[str], seconds: float, tmp_path: Path,
                               monkeypatch: pytest.MonkeyPatch) -> None:
    def served(port: int, engine: Engine) -> None:
        raise Served(engine)

    monkeypatch.setattr("rtdvs.cli.serve.PageServer", served)
    with pytest.raises(Served) as taken:
        main(["serve", "--program", str(stand_in(tmp_path, "exit 1").program), *words])
    assert taken.value.args[0].timeout == seconds


def test_the_command_says_its_limits() -> None:
    said = (f"A run has at most {answers.MOST_JOBS:,} jobs; {serve.MOST_CALLS} calls are made at a time, "
            f"each for at most {serve.LONGEST_CALL:.0f} seconds, and a newer call of a page ends the older one. "
            f"A request has to come whole within {PATIENCE:.0f} seconds.")
    assert said in " ".join(str(command.__doc__).split())


def test_a_port_that_is_taken(server: PageServer, capsys: Captured) -> None:
    words = ["serve", "--program", server.engine.program, "--port", server.port]
    assert refusal(capsys, words) == f"rtdvs: port {server.port} of 127.0.0.1: address already in use\n"


def test_a_port_that_isn_t_permitted(tmp_path: Path, monkeypatch: pytest.MonkeyPatch, capsys: Captured) -> None:
    def denied(server: socketserver.TCPServer) -> None:
        raise PermissionError(13, "Permission denied")

    monkeypatch.setattr(socketserver.TCPServer, "server_bind", denied)
    words = ["serve", "--program", stand_in(tmp_path, "exit 1").program, "--port", "80"]
    assert refusal(capsys, words) == ("rtdvs: port 80 of 127.0.0.1: only the superuser may listen on so low a port; "
                                      "choose one from 1024 on\n")


def test_port_80(server: PageServer, monkeypatch: pytest.MonkeyPatch) -> None:
    """A browser leaves it out in what it says of the host; that of another port is refused with the address."""
    bare = "127.0.0.1"
    refused = json.loads(asked(server, "GET", "/", Host=bare)[1])["refused"]
    assert refused == f"open http://{bare}:{server.port}/ instead"
    monkeypatch.setattr(serve, "HTTP_PORT", server.port)
    assert server.address == "http://127.0.0.1/"
    for host in (bare, "localhost", f"{bare}:{server.port}"):
        assert asked(server, "GET", "/", Host=host)[0] == 200
        assert asked(server, "POST", "/run", BODY, Host=host, Origin=f"http://{host}")[0] == 200
    assert asked(server, "GET", "/", Host="evil.example")[0] == 421
    assert asked(server, "POST", "/run", BODY, Host=bare, Origin="http://evil.example")[0] == 403


@pytest.fixture
def interrupts() -> Iterator[None]:
    """SIGINT reaches the processes that a test starts; a shell lets what it starts in the background ignore it."""
    before = signal.signal(signal.SIGINT, signal.default_int_handler)
    yield
    signal.signal(signal.SIGINT, before)


@contextmanager
def ending(process: subprocess.Popen[str]) -> Iterator[None]:
    """Kills the process where a test fails before it has ended."""
    try:
        yield
    finally:
        process.kill()


@pytest.mark.usefixtures("interrupts")
@pytest.mark.parametrize("number", [signal.SIGINT, signal.SIGTERM])
def test_command_ends_with_its_calls(number: int, tmp_path: Path, calls: Path) -> None:
    """It says where it listens; a signal ends it, and no process and no file of a call is left. Neither its program
    nor the others that are connected are waited for: their time would be over in a quarter of an hour. It says nothing
    of the calls that it ended."""
    program = stand_in(tmp_path, "sleep 900").program
    words = [sys.executable, "-m", "rtdvs", "serve", "--port", "0", "--program", str(program), "--timeout", "900"]
    environment = {**os.environ, "PYTHONPATH": SOURCE, "TMPDIR": str(calls)}
    with subprocess.Popen(words, stdout=subprocess.PIPE, stderr=subprocess.PIPE, env=environment,
                          text=True) as process, ending(process):
        assert process.stdout is not None and process.stderr is not None
        line = process.stdout.readline()
        assert line.startswith("http://127.0.0.1:") and "this machine only" in line
        port = int(line.split(":")[2].split("/")[0])
        connections = [socket.create_connection(("127.0.0.1", port)) for _ in range(8)]
        text = f"POST /run HTTP/1.1\r\nHost: 127.0.0.1:{port}\r\nContent-Type: application/json\r\n"
        whole = f"{text}Content-Length: {len(BODY)}\r\n\r\n".encode() + BODY
        for connection, length in zip(connections, (len(whole), 0, 1, 30, len(whole) - 1, *[len(whole)] * 3)):
            connection.sendall(whole[:length])
        until(lambda: len([*calls.iterdir()]) == 4)
        process.send_signal(number)
        assert process.wait(timeout=60) == 128 + number
        assert process.stderr.read() == ""
        for connection in connections:
            connection.close()
    assert_nothing_left(calls)
