#!/usr/bin/env python3
"""Calls every operation of docs/openapi.yaml at a server and compares what it answers with the document.

Usage: checks/openapi.py [PROGRAM]

PROGRAM is the built program (crates/lakefs/out/lakefs). It is started at a free port with one worker. Each operation is called
with what it takes, and in the ways that its form refuses. The status is to be the one due and one of the operation's, the
body of the document's form for it, without other keys. Not reached are 410, 423, 500, 503 and 507. The document is read
without PyYAML: maps and lists by indent, JSON behind a key, `>-`.
"""
import http.client
import json
import pathlib
import re
import socket
import subprocess
import sys
import time
import urllib.parse

TOP = pathlib.Path(__file__).resolve().parent.parent
KEY = re.compile(r"('[^']*'|[^\s'\"{\[][^:]*):(?: (.*))?$")
KINDS = {"object": dict, "array": list, "string": (str, bytes), "integer": int, "boolean": bool}
LIMITS = {"string": ("minLength", "maxLength"), "array": ("minItems", "maxItems"), "object": ("minProperties", "maxProperties"),
          "integer": ("minimum", "maximum"), "boolean": ("", "")}
MOST = {"int32": 2**31 - 1, "uint32": 2**32 - 1, "uint64": 2**64 - 1}
METHODS = ("get", "post", "put", "delete")
CLOSED = [({"Content-Length": "67108865"}, 413, "body too long"), ({"Filler": "a" * 17000}, 431, "head too long"),
          ({"Transfer-Encoding": "chunked"}, 501, "chunked bodies are not read"), ({"Content-Length": "x"}, 400, "bad length")]


def scalar(text):
    if text[0] in "[{":
        return json.loads(text)
    if text[0] == "'":
        return text[1:-1].replace("''", "'")
    return int(text) if text.isdecimal() else {"true": True, "false": False}.get(text, text)


def block(lines):
    """The map or the list at the front of the lines, which are pairs of an indent and a text and are taken."""
    indent = lines[0][0]
    values = [] if lines[0][1].startswith("- ") else {}
    while lines and lines[0][0] == indent:
        text = lines.pop(0)[1]
        if isinstance(values, list):
            lines.insert(0, (indent + 2, text[2:]))
            values.append(block(lines))
            continue
        name, rest = KEY.match(text).groups()
        if rest == ">-":
            end = next((at for at, line in enumerate(lines) if line[0] <= indent), len(lines))
            values[scalar(name)] = " ".join(text for _, text in lines[:end])
            del lines[:end]
        else:
            values[scalar(name)] = scalar(rest) if rest else block(lines)
    return values


def read_document(text):
    lines = [line for line in text.splitlines() if line.strip() and not line.lstrip().startswith("#")]
    return block([(len(line) - len(line.lstrip()), line.strip()) for line in lines])


def resolved(document, value):
    for name in value.get("$ref", "").split("/")[1:]:
        value = (document if name == "components" else value)[name]
    return value


def operations(document):
    """Each operation by its id: the method, the path, the parameters by name, and what the document says of it."""
    found = {}
    for path, item in document["paths"].items():
        for method in set(METHODS) & set(item):
            said = item[method]
            takes = [resolved(document, one) for one in item.get("parameters", []) + said.get("parameters", [])]
            found[said["operationId"]] = (method, path, {one["name"]: one for one in takes}, said)
    return found


def part_faults(document, schema, value, place):
    """What of the parts of a value isn't of a schema."""
    if isinstance(value, list):
        return [one for at, part in enumerate(value) for one in faults(document, schema["items"], part, f"{place}[{at}]")]
    known, found = schema.get("properties", {}), []
    for name, part in value.items():
        named = known.get(name, schema.get("additionalProperties"))
        found += faults(document, named, part, f"{place}.{name}") if named else [f"{place}: {name} isn't named"]
    return found + [f"{place}: without {name}" for name in schema.get("required", []) if name not in value]


def faults(document, schema, value, place="body"):
    """What of a value isn't of a schema."""
    schema = resolved(document, schema)
    if "oneOf" in schema:
        tries = [faults(document, one, value, place) for one in schema["oneOf"]]
        return [] if tries.count([]) == 1 else [f"{place}: of {tries.count([])} of the forms: {tries}"]
    kind = schema["type"]
    if not isinstance(value, KINDS[kind]) or (kind == "integer" and isinstance(value, bool)):
        return [f"{place}: {value!r} is no {kind}"]
    size = value if kind in ("integer", "boolean") else len(value)
    least, most = (schema.get(name, size) for name in LIMITS[kind])
    bad = value not in schema.get("enum", [value]) or not least <= size <= min(most, MOST.get(schema.get("format"), size))
    bad = bad or ("pattern" in schema and not re.search(schema["pattern"], value))
    found = [f"{place}: {value!r} isn't of {schema}"] if bad else []
    return found + (part_faults(document, schema, value, place) if kind in ("object", "array") else [])


class Check:
    def __init__(self, document, port):
        self.document, self.port, self.operations = document, port, operations(document)
        self.checked, self.differ, self.done = 0, 0, {}

    def tell(self, name, found):
        self.checked += 1
        self.differ += bool(found)
        print(*(f"{name}: {one}\n" for one in found), sep="", end="")

    def send(self, method, target, headers, body):
        wire = http.client.HTTPConnection("127.0.0.1", self.port, timeout=10)
        wire.request(method.upper(), self.document["servers"][0]["url"] + target, body, {"Connection": "close", **headers})
        reply = wire.getresponse()
        raw = reply.read()
        wire.close()
        return reply.status, reply.getheader("Content-Type"), raw

    def asked_faults(self, takes, said, values, body):
        """What of a valid request isn't in the document."""
        found = [f"{name} isn't given" for name, one in takes.items() if one.get("required") and name not in values]
        for name, value in values.items():
            found += faults(self.document, takes[name]["schema"], value, name)
        for content in resolved(self.document, said.get("requestBody", {})).get("content", {}).values():
            found += faults(self.document, content["schema"], body, "request")
        return found

    def told_faults(self, said, status, head, raw):
        """What of an answer isn't in the document."""
        if str(status) not in said["responses"]:
            return [f"the status {status} isn't in the document"]
        content = resolved(self.document, said["responses"][str(status)]).get("content", {})
        form = content.get(head, content.get("*/*"))
        if not form:
            return [f"a body of {head}, {raw!r}"] if raw or head or content else []
        value = json.loads(raw) if head == "application/json" else raw.decode()
        compact = json.dumps(value, sort_keys=True, separators=(",", ":"), ensure_ascii=False)
        same = compact.encode() == raw or head != "application/json"
        return faults(self.document, form["schema"], value) + ([] if same else [f"{raw!r} isn't compact"])

    def ask(self, operation, due, values, body=None, message=None, headers={}):
        method, path, takes, said = self.operations[operation]
        place = re.sub(r"{(\w+)}", lambda found: urllib.parse.quote(values[found[1]], safe=""), path)
        query, given = ({name: values[name] for name in values if takes[name]["in"] == kind} for kind in ("query", "header"))
        sent = json.dumps(body) if isinstance(body, (dict, list)) else body
        answer = self.send(method, f"{place}?{urllib.parse.urlencode(query)}", {**given, **headers}, sent)
        found = self.told_faults(said, *answer)
        if answer[0] != due or (message and json.loads(answer[2]) != {"message": message}):
            found.append(f"{values} {body!r}: {due} {message or ''} is due, and {answer} came")
        if due < 300:
            found += self.asked_faults(takes, said, values, body)
            self.done[operation] = (values, body)
        self.tell(operation, found)
        return json.loads(answer[2]) if answer[1] == "application/json" else answer[2]


def ask_names(check, here):
    check.ask("listRepositories", 200, {"amount": 10, "after": "a"})
    check.ask("createRepository", 201, {}, {"name": "demo", "default_branch": "main", "storage_namespace": "s3://x"})
    check.ask("createRepository", 409, {}, {"name": "demo"}, "already exists: demo")
    for name in ("dev", "other", "gone"):
        check.ask("createBranch", 201, here, {"name": name, "source": "main"})
    check.ask("listBranches", 200, {**here, "amount": 2})
    check.ask("getBranch", 200, {**here, "b": "dev"})
    check.ask("deleteBranch", 204, {**here, "b": "gone"})
    check.ask("deleteBranch", 400, {**here, "b": "main"}, None, "default branch can't be deleted")
    check.ask("createTag", 201, here, {"id": "v1", "ref": "main@"})
    check.ask("createTag", 409, here, {"id": "v1", "ref": "main"}, "already exists: v1")
    check.ask("createBranch", 409, here, {"name": "dev", "source": "main"}, "already exists: dev")
    check.ask("listTags", 200, here)
    check.ask("getTag", 200, {**here, "t": "v1"})
    check.ask("deleteTag", 204, {**here, "t": "v1"})


def ask_objects(check, here):
    main, ref = {**here, "b": "main"}, {**here, "ref": "main"}
    outside = {"physical_address": "s3://x/far", "checksum": "", "size_bytes": 5, "mtime": 7, "metadata": {"k": "v"}}
    check.ask("uploadObject", 201, {**main, "path": "a/1"}, b"hello", None, {"Content-Type": "text/plain"})
    check.ask("uploadObject", 201, {**main, "path": "b c&+é"}, b"")
    check.ask("stageObject", 201, {**main, "path": "far"}, outside)
    check.ask("stageObject", 400, {**main, "path": "far"}, {**outside, "size_bytes": -1}, "bad value: size_bytes")
    check.ask("copyObject", 201, {**main, "dest_path": "a/2"}, {"src_path": "a/1", "src_ref": "main"})
    check.ask("getObject", 200, {**ref, "path": "a/2"})
    check.ask("getObject", 422, {**ref, "path": "far"}, None, "object held outside: far")
    check.ask("statObject", 200, {**ref, "path": "far"})
    check.ask("listObjects", 200, {**ref, "prefix": "", "after": "", "amount": 2, "delimiter": "/"})
    check.ask("deleteObject", 204, {**main, "path": "a/2"})
    for what in ({"type": "reset"}, {"type": "common_prefix", "path": "a/"}, {"type": "object", "path": "a/1"}):
        check.ask("resetBranch", 204, {**main, "b": "other"}, what)


def ask_commits(check, here):
    main, dev, user = {**here, "b": "main"}, {**here, "b": "dev"}, {"Lake-User": "me"}
    first = check.ask("commit", 201, {**main, **user}, {"message": "first", "metadata": {"owner": "me"}})
    check.ask("getCommit", 200, {**here, "id": first["id"]})
    check.ask("getCommit", 404, {**here, "id": "0" * 64}, None, "reference not found: " + "0" * 64)
    check.ask("logCommits", 200, {**here, "ref": "main~1", "after": first["id"], "amount": 5, "since": "1969-01-01T00:00:00Z"})
    check.ask("uploadObject", 201, {**dev, "path": "a/1"}, b"other")
    check.ask("revertBranch", 400, dev, {"ref": "main"}, "uncommitted changes: a/1")
    check.ask("commit", 201, dev, {})
    merge = {**here, "src": "dev", "dst": "main"}
    check.ask("mergeIntoBranch", 409, merge, {}, "conflicts: 1")
    check.ask("mergeIntoBranch", 200, {**merge, **user}, {"strategy": "source-wins", "message": "m", "metadata": {}})
    check.ask("cherryPick", 400, {**here, "b": "other"}, {"ref": "main"}, "parent number needed")
    check.ask("cherryPick", 201, {**here, "b": "other", **user}, {"ref": "dev", "parent_number": 0})
    check.ask("revertBranch", 404, main, {"ref": "main", "parent_number": 7}, "no such parent: 7")
    check.ask("revertBranch", 201, {**main, **user}, {"ref": "main", "parent_number": 1})


def ask_settings(check, here):
    hooks = [{"type": "require_meta", "branch": "ma*", "key": "owner"}, {"type": "deny_prefix", "branch": "x", "prefix": "p"},
             {"type": "max_size", "branch": "x", "bytes": 5}, {"type": "max_changes", "branch": "x", "count": 5}]
    for operation in ("getProtection", "getHooks"):
        check.ask(operation, 404, here, None, "no such setting")
    check.ask("setHooks", 400, here, [{"type": "none"}], "bad rule 0: type")
    check.ask("setHooks", 204, here, hooks)
    check.ask("getHooks", 200, here)
    check.ask("uploadObject", 201, {**here, "b": "main", "path": "n"}, b"new")
    check.ask("commit", 412, {**here, "b": "main"}, {}, "denied by hook rule 0")
    check.ask("setProtection", 400, here, {}, "bad rules")
    check.ask("setProtection", 204, here, [{"pattern": "ma*"}])
    check.ask("getProtection", 200, here)
    protected = [("uploadObject", {"path": "n"}, b"x"), ("commit", {}, {}), ("resetBranch", {}, {"type": "reset"})]
    for operation, values, body in protected:
        check.ask(operation, 403, {**here, "b": "main", **values}, body, "branch protected by rule 0")


def ask_refused(check, operation, values, body):
    """The operation as its form refuses it: with what it took before, but for one thing."""
    takes = check.operations[operation][2]
    if "r" in takes:
        check.ask(operation, 404, {**values, "r": "not-there"}, body, "repository not found: not-there")
    for name, one in takes.items():
        bad = {"path": "-", "header": "a b"}.get(one["in"], "0" if name in ("amount", "since") else None)
        if bad:
            check.ask(operation, 400, {**values, name: bad}, body, f"bad value: {name}")
        if one["in"] == "query" and one.get("required"):
            check.ask(operation, 400, {key: value for key, value in values.items() if key != name}, body, f"missing: {name}")
    if isinstance(body, (dict, list)):
        check.ask(operation, 400, values, b"[", "bad body")
    for name in body if isinstance(body, dict) else []:
        check.ask(operation, 400, values, {**body, name: None}, f"bad value: {name}")
    for headers, status, message in CLOSED:
        check.ask(operation, status, values, None, message, headers)


def ask_others(check):
    """The methods that a path doesn't take, and a path of no operation."""
    paths = check.document["paths"].items()
    others = [(method, path, 405) for path, item in paths for method in {*METHODS, "patch"} - set(item)]
    for method, path, due in others + [("get", "/none", 404)]:
        answer = check.send(method, re.sub(r"{\w+}", "main", path), {}, None)
        check.tell(f"{method} {path}", [] if answer[0] == due else [f"{due} is due, and {answer} came"])


def started(program):
    """The server, and its port, at which it accepts connections."""
    with socket.create_server(("127.0.0.1", 0)) as listener:
        port = listener.getsockname()[1]
    server = subprocess.Popen([program, "run", "--listen", f"127.0.0.1:{port}", "--workers", "1"])
    while server.poll() is None:
        with socket.socket() as probe:
            if probe.connect_ex(("127.0.0.1", port)) == 0:
                return server, port
        time.sleep(0.05)
    sys.exit(f"{program} ended with status {server.returncode}")


def main():
    program = pathlib.Path(sys.argv[1] if len(sys.argv) > 1 else TOP / "crates/lakefs/out/lakefs").resolve()
    document = read_document((TOP / "docs/openapi.yaml").read_text())
    server, port = started(program)
    check = Check(document, port)
    try:
        for ask in (ask_names, ask_objects, ask_commits, ask_settings):
            ask(check, {"r": "quickstart"})
        for operation in check.operations:
            check.tell(operation, [] if operation in check.done else ["it wasn't called"])
        for operation, (values, body) in check.done.items():
            ask_refused(check, operation, values, body)
        ask_others(check)
    finally:
        server.kill()
        server.wait()
    print(f"{check.checked} checked, {check.differ} differ")
    return 1 if check.differ or not check.checked else 0


if __name__ == "__main__":
    sys.exit(main())
