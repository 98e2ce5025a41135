"""Whether nginx has read its configuration: by its workers, as it may say yes and refuse it only then."""

import subprocess

import pytest
from scripts import script

token = script("token")


@pytest.mark.parametrize("command, is_fine, told", [
    ("true", True, ""), ("false", False, "why"), ("gone", False, "gone"),
])  # fmt: skip
def test_ran(monkeypatch, command, is_fine, told):
    calls = []

    def run(words, **more):
        calls.append((words, more["stdin"]))
        if words[0] == "gone":
            raise FileNotFoundError(2, "No such file", "gone")
        return subprocess.CompletedProcess(words, int(not is_fine), "", f"{told}\n")

    monkeypatch.setattr(subprocess, "run", run)
    found, said = token.test_nginx(f"{command} -a 'b c'")
    assert (found, told in said) == (is_fine, True) and calls == [([command, "-a", "b c"], subprocess.DEVNULL)]


def test_a_warning_is_no_reason(monkeypatch):
    """What nginx 1.26 says of `listen .. http2`, and takes."""
    warning = 'nginx: [warn] the "listen ... http2" directive is deprecated, use the "http2" directive instead in x:158'
    done = subprocess.CompletedProcess(["nginx"], 1, "", f"{warning}\nnginx: [emerg] bind() failed\n")
    monkeypatch.setattr(subprocess, "run", lambda *words, **more: done)
    assert token.test_nginx("nginx -t") == (False, "nginx: [emerg] bind() failed")


def process(folder, number, title, parent):
    (folder / str(number)).mkdir(parents=True)
    (folder / str(number) / "cmdline").write_bytes(title)
    (folder / str(number) / "status").write_text(f"Name:\tnginx\nPid:\t{number}\nPPid:\t{parent}\nTracerPid:\t7\n")


def test_workers(tmp_path, monkeypatch):
    """Those of this nginx, that take connections: none that is shutting down, and none of another nginx."""
    proc = tmp_path / "proc"
    process(proc, 10, b"nginx: worker process\0", 7)
    process(proc, 11, b"nginx: worker process\0\0\0 ", 7)
    process(proc, 12, b"nginx: worker process is shutting down\0", 7)
    process(proc, 13, b"nginx: worker process\0", 77)
    process(proc, 14, b"nginx: cache manager process\0", 7)
    process(proc, 15, b"sh\0-c\0nginx: worker process\0", 7)
    (proc / "16").mkdir()
    process(proc, 17, b"sleep\0009\0", 1)  # another user's, named by prctl(PR_SET_NAME)
    (proc / "17/status").write_bytes(b"Name:\t\xff\xfe\nPid:\t17\nPPid:\t1\n")
    (tmp_path / "pid").write_text("7\n")
    real = token.Path
    monkeypatch.setattr(token, "Path",
        lambda name: real(str(name).replace("/proc", str(proc))) if name == "/proc" else real(name))
    assert token.workers(str(tmp_path / "pid")) == {"10", "11"}
    assert token.workers(str(tmp_path / "none")) == set()


def told(monkeypatch, seen, answer=(True, "")):
    """What is told where the workers are those of `seen`, one after the other; what was run."""
    calls, left, moments = [], iter(seen), iter(range(0, 10000, 4))
    monkeypatch.setattr(token, "workers", lambda pid: calls.append(pid) or next(left, seen[-1]))
    monkeypatch.setattr(token, "test_nginx", lambda command: calls.append(command) or answer)
    monkeypatch.setattr(token.time, "monotonic", lambda: next(moments))
    monkeypatch.setattr(token.time, "sleep", lambda _: None)
    return token.reload_nginx("RELOAD", "PID"), calls


def test_nginx_has_read_it_where_a_new_worker_is_there(monkeypatch):
    said, calls = told(monkeypatch, [{"1", "2"}, {"1", "2"}, {"2", "3"}])
    assert said == "" and calls[:2] == ["PID", "RELOAD"], "the workers of before are counted before"


def test_nginx_that_starts_no_worker_has_not(monkeypatch):
    for seen in ([{"1"}], [{"1", "2"}, {"1"}], [set()]):
        said, calls = told(monkeypatch, seen)
        assert "started no worker in 30 seconds" in said and 5 < len(calls) < 15
    said, calls = told(monkeypatch, [{"1"}, {"2"}], (False, "no pid"))
    assert said == "no pid" and len(calls) == 2
    assert told(monkeypatch, [{"1"}, {"2"}], (False, ""))[0] == "RELOAD", "a failure without words is one"
