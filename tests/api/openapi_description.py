"""docs/openapi.yaml as test_openapi.py holds requests and replies to it: a validator for each of its schemas, and what
of the description contradicts itself."""

import contextlib
import csv
import decimal
import io
import json
import re

import pytest

jsonschema = pytest.importorskip("jsonschema", reason="there is no jsonschema (Debian: python3-jsonschema)")
yaml = pytest.importorskip("yaml", reason="there is no yaml (Debian: python3-yaml)")

DEEPEST = 127


def is_csv(text):
    """Whether a text is of the form of an import: its header, and rows of two fields, the second one a digest."""
    if not isinstance(text, str):
        return True
    rows = [row for row in csv.reader(io.StringIO(text[1:] if text.startswith("\ufeff") else text)) if row]
    return rows[:1] == [["serial", "key_sha256"]] and len(rows) <= 501 and all(
        len(row) == 2 and re.fullmatch("[0-9A-Fa-f]{64}", row[1]) for row in rows[1:]
    )


def full_match(_, pattern, text, __):
    """A pattern as ECMA 262 has it: `$` is the end alone."""
    if isinstance(text, str) and not re.fullmatch(pattern.removeprefix("^").removesuffix("$"), text):
        yield jsonschema.ValidationError(f"{text!r:.60} doesn't match {pattern}")


def type_or_null(validator, kinds, value, schema):
    """A type as OpenAPI 3.0.3 has it: what is `nullable` may be null."""
    if value is not None or not schema.get("nullable"):
        yield from jsonschema.Draft202012Validator.VALIDATORS["type"](validator, kinds, value, schema)


def closed(part):
    """A part of the description in which an object has no members but those that are described, as a reply of this
    version has it. The description itself leaves replies open, for those of a later one."""
    if isinstance(part, list):
        return [closed(item) for item in part]
    if not isinstance(part, dict):
        return part
    inner = {name: closed(item) for name, item in part.items()}
    is_object = part.get("type") == "object" and "properties" in part
    return {"additionalProperties": False, **inner} if is_object else inner


def depth(value):
    """How deep a value of JSON nests."""
    inner = value.values() if isinstance(value, dict) else value if isinstance(value, list) else None
    return 0 if inner is None else 1 + max(map(depth, inner), default=0)


class Description:
    """The description, with a validator for each of its schemas."""

    def __init__(self, path):
        self.all = yaml.safe_load(path.read_text(encoding="utf-8"))
        self.closed = closed(self.all["components"])
        others = {"pattern": full_match, "type": type_or_null}
        self.kind = jsonschema.validators.extend(jsonschema.Draft202012Validator, others)
        self.formats = jsonschema.FormatChecker(formats=())
        self.formats.checks("serials-and-keys")(is_csv)

    def fault(self, schema, value, components=None):
        """What of a value isn't as the schema has it, or nothing."""
        whole = {**schema, "components": components or self.all["components"]}
        for error in self.kind(whole, format_checker=self.formats).iter_errors(value):
            return f"{'/'.join(map(str, error.absolute_path))}: {error.message:.160}"
        return None

    def at(self, part):
        """A part of the description, or what it refers to."""
        while "$ref" in part:
            found = self.all
            for name in part["$ref"].removeprefix("#/").split("/"):
                found = found[name]
            part = found
        return part

    def operation(self, method, path):
        return self.all["paths"].get(path, {}).get(method.lower())

    def asks(self, operation, query, body):
        """Whether a request is one that the description has, by its query and its body."""
        pieces = [piece.partition("=") for piece in query.split("&")]
        for parameter in map(self.at, operation.get("parameters", [])):
            found = [value for name, _, value in pieces if name == parameter["name"]]
            if len(found) != 1 or self.fault(parameter["schema"], found[0]):
                return False
        if "requestBody" not in operation:
            return True
        try:
            value = json.loads(body.decode("utf-8"), parse_float=decimal.Decimal, parse_constant=self.no_constant)
        except ValueError:
            return False
        schema = operation["requestBody"]["content"]["application/json"]["schema"]
        return depth(value) <= DEEPEST and not self.fault(schema, value)

    @staticmethod
    def no_constant(name):
        raise ValueError(f"{name} is no JSON")

    def fault_of_reply(self, operation, status, fields, text):
        """What of a reply isn't as the description has it: its status, its fields or its body."""
        if str(status) not in operation["responses"]:
            return f"status {status}"
        response = self.at(operation["responses"][str(status)])
        for name, field in response.get("headers", {}).items():
            if fault := self.fault_of_field(self.at(field), fields.get(name.lower())):
                return f"field {name}: {fault}"
        kind = fields.get("content-type")
        if kind not in response["content"]:
            return f"content of the kind {kind}"
        value = text if kind == "text/csv" else json.loads(text)
        fault = self.fault(response["content"][kind]["schema"], value, self.closed)
        return fault or self.fault_of_refusal(response.get("x-refusals"), value)

    def fault_of_field(self, field, text):
        """What of a field of a reply isn't as the description has it, or nothing; a number goes by its digits."""
        if text is None:
            return "it is missing" if field["required"] else None
        is_number = field["schema"]["type"] == "integer"
        if is_number and not text.isdecimal():
            return f"{text} is no number"
        return self.fault(field["schema"], int(text) if is_number else text)

    def fault_of_refusal(self, numbers, refusal):
        """What of a refusal isn't as its example has it, or as the response allows, or nothing."""
        if numbers is None:
            return None
        example = self.all["components"]["examples"][refusal["error"]]["value"]
        if refusal["no"] not in numbers:
            return f"{refusal['no']} is none of {numbers}"
        if refusal["no"] != example["no"] or set(refusal) != set(example):
            return f"{refusal} isn't like {example}"
        return None


def faults_of_examples(description):
    """The examples that aren't as their schemas have them."""
    for path, operations in description.all["paths"].items():
        for method, operation in operations.items():
            parts = [operation.get("requestBody", {}), *map(description.at, operation["responses"].values())]
            for media in (media for part in parts for media in part.get("content", {}).values()):
                for name, example in media.get("examples", {}).items():
                    if fault := description.fault(media["schema"], description.at(example)["value"]):
                        yield f"{method} {path}, example {name}: {fault}"
            for status, numbers, shown in refused_by(description, operation):
                if numbers != shown:
                    yield f"{method} {path}, {status}: refused as {numbers}, with examples of {shown}"


def refused_by(description, operation):
    """The refusals of an operation by their status: the numbers, and those of their examples."""
    for status, response in operation["responses"].items():
        found = description.at(response)
        if "x-refusals" in found:
            examples = found["content"]["application/json"]["examples"].values()
            yield status, found["x-refusals"], [description.at(example)["value"]["no"] for example in examples]


def faults_of_form(description):
    """The schemas that are none of JSON Schema 2020-12."""
    schemas = description.all["components"]["schemas"]
    for name, schema in schemas.items():
        with contextlib.suppress(jsonschema.SchemaError):
            jsonschema.Draft202012Validator.check_schema(schema)
            continue
        yield f"{name} is no schema of JSON Schema 2020-12"


def faults_of_specification(description):
    """What the specification's own schema has against the description, where a package has it; Debian 12 has none."""
    package = pytest.importorskip("openapi_spec_validator", reason="no package has the specification's own schema")
    is_older = description.all["openapi"].startswith("3.0")
    validator = package.OpenAPIV30SpecValidator if is_older else package.OpenAPIV31SpecValidator
    for error in validator(description.all).iter_errors():
        yield f"{error.message:.200}"
