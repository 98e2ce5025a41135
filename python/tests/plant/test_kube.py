"""The pod of deploy/kube is that of deploy/image/pod: its containers have the same users, mounts and probes, and
nothing ends one that is slow. There is one, whose volumes no other pod may have. Each member is one that Kubernetes
has, says its own client."""

import re
import shlex
from collections import defaultdict
from collections.abc import Iterator
from typing import Any

import pytest
from conftest import DEPLOY
from wanekupo.common.store_user import LONGEST

yaml = pytest.importorskip("yaml", reason="there is no yaml (Debian: python3-yaml)")

TEXTS = [(DEPLOY / "kube" / name).read_text("utf-8") for name in ("wanekupo.yaml", "make.yaml")]
SERVICE, SET, MAKE = (it for text in TEXTS for it in yaml.safe_load_all(text))
SPEC, POD = SET["spec"], SET["spec"]["template"]["spec"]
CLAIMS = {it["metadata"]["name"]: it["spec"] for it in SPEC["volumeClaimTemplates"]}

SCRIPT = (DEPLOY / "image/pod").read_text("utf-8").replace("\\\n", " ")
ARRAYS = dict(re.findall(r"^(shut|room)=\((.*)\)$", SCRIPT, re.MULTILINE))
# The number that the image gives, and Debian's.
USERS = {"station": 880, "www-data": 33}


def by_script(line: str) -> tuple[str, dict[str, Any]]:
    """A container's name, and what the script makes it of."""
    line = re.sub(r"\$\{BOUND:\+[^}]*\}", "", line)
    words, after = shlex.split(re.sub(r'"\$\{(\w+)\[@\]\}"', lambda it: ARRAYS[it[1]], line)), defaultdict(list)
    for word, following in zip(words, words[1:]):
        after[word].append(following)
    mounts = {it.partition(":")[0]: ("memory", False) for it in after["--tmpfs"]}
    volumes = [it.removeprefix("wanekupo-").split(":") for it in after["-v"]]
    shut = after["--cap-drop"], after["--security-opt"], "--read-only" in words, "--pull=never" in words
    return after["--name"][0].removeprefix("wanekupo-"), {
        "user": USERS[after["--user"][0]], "is shut": shut == (["all"], ["no-new-privileges"], True, True),
        "command": words[words.index("$image") + 1 :], "probe": shlex.split(after["--health-cmd"][0]),
        "mounts": mounts | {at: (name, more == ["ro"]) for name, at, *more in volumes},
    }  # fmt: skip


def by_file(it: dict[str, Any]) -> dict[str, Any]:
    own, rooms = it["securityContext"], {room["name"]: room["emptyDir"]["medium"].lower() for room in POD["volumes"]}
    shut = own["capabilities"], own["allowPrivilegeEscalation"], own["readOnlyRootFilesystem"], it["imagePullPolicy"]
    return {
        "user": own["runAsUser"], "is shut": shut == ({"drop": ["ALL"]}, False, True, "Never"),
        "command": it.get("command", []), "probe": it["readinessProbe"]["exec"]["command"],
        "mounts": {mount["mountPath"]: (rooms.get(mount["name"], mount["name"]), mount.get("readOnly", False))
                   for mount in it["volumeMounts"]},
    }  # fmt: skip


def test_containers() -> None:
    """As the script makes them; no room is shared."""
    wanted = dict(map(by_script, re.findall(r'" create (--pod .*) > /dev/null$', SCRIPT, re.MULTILINE)))
    assert len(wanted) == 2 and {it["name"]: by_file(it) for it in POD["containers"]} == wanted
    mounted = [mount["name"] for it in POD["containers"] for mount in it["volumeMounts"] if mount["name"] not in CLAIMS]
    assert len(mounted) == len(set(mounted)) == len(POD["volumes"])
    assert all(it["securityContext"]["runAsUser"] == it["securityContext"]["runAsGroup"] for it in POD["containers"])


def test_one_pod() -> None:
    """Whose volumes no other may have; no group reads for both containers. The pod before it fills the same volumes."""
    assert (SPEC["replicas"], [it["accessModes"] for it in CLAIMS.values()]) == (1, [["ReadWriteOncePod"]] * 2)
    assert SPEC["template"]["metadata"]["labels"] == SPEC["selector"]["matchLabels"] == SERVICE["spec"]["selector"]
    assert "fsGroup" not in POD["securityContext"] and POD["securityContext"]["runAsNonRoot"]
    spec, name = MAKE["spec"], f"{SET['metadata']['name']}-0"
    claimed = {it["name"]: it["persistentVolumeClaim"]["claimName"] for it in spec["volumes"]}
    assert claimed == {it: f"{it}-{name}" for it in CLAIMS}
    users = [it["securityContext"]["runAsUser"] for it in (*spec["initContainers"], *spec["containers"])]
    assert users == [0, USERS["www-data"], USERS["station"]]


def test_stops_and_probes() -> None:
    """A stop has the time that script and unit give it; a probe waits longer than `health`, and ends nothing."""
    seconds = POD["terminationGracePeriodSeconds"]
    assert re.findall(r"--stop-timeout (\d+)", SCRIPT) == [str(seconds)]
    assert "TimeoutStopSec=infinity\n" in (DEPLOY / "station.service").read_text("utf-8") and seconds == LONGEST
    (patience,) = re.findall(r"^PATIENCE = (.*)$", (DEPLOY / "image/health").read_text("utf-8"), re.MULTILINE)
    for it in POD["containers"]:
        assert it["readinessProbe"]["timeoutSeconds"] > float(patience)
        assert not {"livenessProbe", "startupProbe"} & it.keys()
    sysctls = [f"--sysctl {it['name']}={it['value']}" for it in POD["securityContext"]["sysctls"]]
    assert re.findall(r"--sysctl \S+", SCRIPT) == sysctls


def unknown(client: Any, kind: str, it: Any, place: str) -> Iterator[str]:
    """What of a value isn't of a kind of the client's."""
    if kind.startswith("list["):
        for each in it:
            yield from unknown(client, kind[5:-1], each, place)
    elif model := getattr(client, kind, None):
        types = {name: model.openapi_types[own] for own, name in model.attribute_map.items()}
        for name, value in it.items():
            yield from unknown(client, types.get(name, "nothing"), value, f"{place}.{name}")
    elif not isinstance(it, {"str": str, "int": int, "bool": bool, "nothing": type(None)}.get(kind, object)):
        yield f"{place} is no {kind}"


@pytest.mark.parametrize("it", [SERVICE, SET, MAKE], ids=lambda it: it["kind"])
def test_members(it: dict[str, Any]) -> None:
    client = pytest.importorskip("kubernetes.client", reason="there is no client (Debian: python3-kubernetes)")
    assert list(unknown(client, f"V1{it['kind']}", it, it["kind"])) == []
