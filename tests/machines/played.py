"""Prints what podman plays of a file for Kubernetes: its pods. Of a StatefulSet, which podman 4.3 doesn't know, that is
its first pod as a cluster makes it: the template, under the set's name and a 0, with a volume for each claim."""

import sys
from pathlib import Path
from typing import Any

import yaml


def first_pod(it: dict[str, Any]) -> dict[str, Any]:
    name, pod = f"{it['metadata']['name']}-0", it["spec"]["template"]
    claims = [claim["metadata"]["name"] for claim in it["spec"]["volumeClaimTemplates"]]
    pod["spec"]["volumes"] += [{"name": it, "persistentVolumeClaim": {"claimName": f"{it}-{name}"}} for it in claims]
    return {"apiVersion": "v1", "kind": "Pod", **pod, "metadata": {**pod["metadata"], "name": name}}


documents = [it for it in yaml.safe_load_all(Path(sys.argv[1]).read_text("utf-8")) if it["kind"] != "Service"]
print(yaml.safe_dump_all(first_pod(it) if it["kind"] == "StatefulSet" else it for it in documents))
