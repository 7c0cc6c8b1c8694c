"""A client of tclsafe_serve: trees of interpreters for scripts that nobody trusts.

    with Server("tclsafe_serve") as server:
        guest = server.make_tree().root.create("guest", safe=True)
        guest.alias("price", lambda caller, name: f"{name} costs 7")
        print(guest.evaluate("price tea", limit=1000))

The protocol is docs/PROTOCOL.md. This file needs nothing but Python 3.8 or later. A server belongs
to one thread.
"""
import itertools
import json
import subprocess


class TclsafeError(Exception):
    """What a server or a script says instead of a result."""


class Refused(TclsafeError):
    """A message wasn't done: `number` says why, as docs/REFUSALS.md and docs/PROTOCOL.md tell."""

    def __init__(self, number, text):
        super().__init__(f"{number}: {text}")
        self.number = number
        self.text = text


class TclError(TclsafeError):
    """A script completed otherwise than by a result: `code` is 1 for an error. A function that a
    script calls raises it to end the call so."""

    def __init__(self, text, code=1):
        super().__init__(text)
        self.text = text
        self.code = code


class Stopped(TclsafeError):
    """A limit of the root was met: `limit` is "count" or "depth"."""

    def __init__(self, limit):
        super().__init__(f"stopped by the limit of {limit}")
        self.limit = limit


class Exited(TclsafeError):
    """A script ended its run by `exit`, with this `status`."""

    def __init__(self, status):
        super().__init__(f"exit {status}")
        self.status = status


class Cut(TclsafeError):
    """The run was ended from outside. A function that a script calls raises it to end the run."""

    def __init__(self, text="the run was ended"):
        super().__init__(text)


class Gone(TclsafeError):
    """The server is gone, or says what no server says."""


class _OpenCall:
    """A call that the server waits for the answer of."""

    def __init__(self, number):
        self.number = number
        # whether the run that it is of has ended meanwhile
        self.is_over = False


class Server:
    """A server, as a process of its own."""

    def __init__(self, *command):
        """Starts the server by this command: the program, and its words."""
        self._process = subprocess.Popen(
            command or ["tclsafe_serve"], stdin=subprocess.PIPE, stdout=subprocess.PIPE
        )
        self._ids = itertools.count(1)
        self._functions = {}
        self._calls = []
        # what a function raised, which is to be raised where its run was begun
        self._failure = None

    def __enter__(self):
        return self

    def __exit__(self, *failure):
        self.close()

    def close(self):
        """Ends the session, and returns the server's exit status."""
        if self._process.stdin and not self._process.stdin.closed:
            try:
                self._process.stdin.close()
            except OSError:
                pass
        self._process.stdout.close()
        return self._process.wait()

    def make_tree(self, integers=8):
        """Makes a tree; in one of style 9, `010` is read as ten."""
        fields = {} if integers == 8 else {"integers": integers}
        return Tree(self, self.request("make_tree", **fields)["tree"])

    def request(self, do, **fields):
        """Sends a message, and returns what its answer gives. Calls that come meanwhile are
        answered by the functions that they are of."""
        number = next(self._ids)
        self.write(json.dumps({"id": number, "do": do, **fields}).encode())
        while True:
            line = self.read()
            if "call" in line:
                self._serve(line)
            elif line.get("id") == number:
                return self._answer(line)
            elif "error" in line:
                raise Refused(**line["error"])
            else:
                raise Gone(f"a line answers nothing: {line}")

    def write(self, line):
        """Writes a line, without its newline."""
        try:
            self._process.stdin.write(line + b"\n")
            self._process.stdin.flush()
        except (OSError, ValueError):
            raise Gone("the server reads no more") from None

    def read(self):
        """Reads a line."""
        line = self._process.stdout.readline()
        if not line.endswith(b"\n"):
            raise Gone("the server writes no more")
        return json.loads(line)

    def add_function(self, function):
        """Takes a function that scripts may call, and returns the name by which calls say it."""
        name = f"{getattr(function, '__name__', 'function')}-{len(self._functions)}"
        self._functions[name] = function
        return name

    def _answer(self, line):
        """Returns what an answer gives, or raises what it refuses."""
        refused = line.get("error")
        given = line.get("ok")
        # What ends an entry so has ended the call that it was handed in for.
        if refused and refused["number"] == 401:
            self._end_call()
        if given and given.get("end") in ("exited", "cut"):
            self._end_call()
        if refused:
            raise Refused(**refused)
        return given

    def _end_call(self):
        if self._calls:
            self._calls[-1].is_over = True

    def _serve(self, line):
        """Answers a call."""
        call = _OpenCall(line["call"])
        caller = Interpreter(Tree(self, line["tree"]), line["interpreter"])
        self._calls.append(call)
        try:
            do, fields = self._reply(caller, line["words"])
            if not call.is_over:
                self.request(do, call=call.number, **fields)
        finally:
            self._calls.pop()

    def _reply(self, caller, words):
        """Returns the message by which a call is answered, and its fields."""
        function = self._functions.get(words[0] if words else None)
        if function is None:
            return "return", {"code": 1, "text": "no such function"}
        try:
            text = function(caller, *words[1:])
            return "return", {"code": 0, "text": "" if text is None else str(text)}
        except TclError as error:
            return "return", {"code": error.code, "text": error.text}
        except (Cut, Exited):
            return "end_run", {}
        except Exception as failure:
            self._failure = failure
            return "end_run", {}

    def raise_failure(self):
        """Raises what a function raised that a script called, once its run has ended."""
        if self._failure and not self._calls:
            failure, self._failure = self._failure, None
            raise failure


class Tree:
    """A tree of interpreters, with files and channels in memory."""

    def __init__(self, server, number):
        self.server = server
        self.number = number

    @property
    def root(self):
        """The interpreter above all others of the tree."""
        return Interpreter(self, [])

    def at(self, *path):
        """The interpreter that these names lead to from the root."""
        return Interpreter(self, list(path))

    def request(self, do, **fields):
        """Sends a message about the tree, and returns what its answer gives."""
        return self.server.request(do, tree=self.number, **fields)

    def put_file(self, name, text):
        """Puts a file into the place of any that has its name."""
        self.request("put_file", name=name, text=text)

    def get_file(self, name):
        """Returns what a file holds, or None where it isn't there."""
        return self.request("get_file", name=name)["text"]

    def put_input(self, text):
        """Puts a text behind what scripts can read from `stdin`."""
        self.request("put_input", text=text)

    def take_output(self, channel="stdout"):
        """Returns what was written to `stdout` or `stderr` since it was last taken."""
        return self.request("take_output", channel=channel)["text"]

    def drop(self):
        """Drops the tree."""
        self.request("drop_tree")


class Interpreter:
    """An interpreter, by its path. Whether it is there is looked at by what is asked of it."""

    def __init__(self, tree, path):
        self.tree = tree
        self.path = list(path)

    def __repr__(self):
        return f"Interpreter({self.tree.number}, {self.path})"

    def request(self, do, **fields):
        """Sends a message about the interpreter, and returns what its answer gives."""
        return self.tree.request(do, path=self.path, **fields)

    def child(self, name):
        """The child of this name."""
        return Interpreter(self.tree, [*self.path, name])

    def create(self, name, safe=True):
        """Makes a child, and returns it."""
        child = self.child(name)
        child.request("create", safe=safe)
        return child

    def delete(self):
        """Deletes it, with all below it."""
        self.request("delete")

    def evaluate(self, script, limit=None):
        """Evaluates a script and returns its result.

        Raises TclError where it ends in an error, Stopped, Exited or Cut.
        """
        given = self.request("evaluate", script=script, **_unless_none(limit=limit))
        self.tree.server.raise_failure()
        return _result(given)

    def alias(self, name, function):
        """Makes a name of it an alias to a function of the client's.

        The function is called with the interpreter that calls, and with the words of the call. It
        returns the result, or raises TclError. Before it returns it may evaluate scripts in all
        interpreters of the tree, make and delete them, and set their aliases and limits; all else
        is refused until the call has ended. What else it raises ends the run, and is raised where
        that was begun.
        """
        words = [self.tree.server.add_function(function)]
        self.request("alias_to_client", name=name, words=words)

    def alias_to(self, name, target, *words):
        """Makes a name of it an alias to a command of another interpreter of the tree."""
        self.request("alias", name=name, to=target.path, words=list(words))

    def clear_alias(self, name):
        """Takes an alias away."""
        self.request("clear_alias", name=name)

    def limit_count(self, count):
        """Sets how many steps it may have counted with all below it; None for no limit."""
        self.request("limit_count", count=count)

    def limit_depth(self, depth):
        """Sets how many evaluations may be in one another, 1 to 1000."""
        self.request("limit_depth", depth=depth)

    def look(self):
        """Returns a dict: children, count, count_limit, depth, depth_limit and safe."""
        return self.request("look")

    def save(self):
        """Saves it by itself, with all below it, as it stands."""
        return Saved(self.tree.server, self.request("save")["saved"])

    def watch(self, script, limit=None, watched=None):
        """Evaluates a script, and records what crosses the boundary of the interpreter `watched`,
        of this one where that is None. Returns a Record."""
        path = (watched or self).path
        fields = _unless_none(limit=limit)
        given = self.request("watch", script=script, watched=path, **fields)
        self.tree.server.raise_failure()
        return Record(self.tree.server, given)


class Record:
    """A record: `lines`, a text for each crossing, and how the evaluation ended."""

    def __init__(self, server, given):
        self.server = server
        self.number = given["record"]
        self.lines = given["lines"]
        self._ended = given["ended"]

    def result(self):
        """Returns the result of the evaluation, or raises as Interpreter.evaluate does."""
        return _result(self._ended)

    def drop(self):
        """Drops the record."""
        self.server.request("drop_record", record=self.number)


class Saved:
    """A saved interpreter."""

    def __init__(self, server, number):
        self.server = server
        self.number = number

    def same(self, other):
        """Says whether another one is the same, with all that they have."""
        return self.server.request("compare", saved=self.number, **{"with": other.number})["same"]

    def replay(self, record, limit=None):
        """Plays a record to it, by itself, and returns a Replay."""
        fields = _unless_none(limit=limit)
        given = self.server.request("replay", saved=self.number, record=record.number, **fields)
        return Replay(self.server, given)

    def drop(self):
        """Drops it."""
        self.server.request("drop_saved", saved=self.number)


class Replay:
    """A replay: its `outcome`, the `lines` of what was told, whether that is `same` as in the
    record, and `saved`, the interpreter as it was left."""

    def __init__(self, server, given):
        self.outcome = given["outcome"]
        self.lines = given["lines"]
        self.same = given["same"]
        self.saved = Saved(server, given["saved"])


def _unless_none(**fields):
    return {name: it for name, it in fields.items() if it is not None}


def _result(given):
    """Returns the result of an evaluation that ended so, or raises what it ended in."""
    end = given["end"]
    if end == "completed" and given["code"] == 0:
        return given["text"]
    if end == "completed":
        raise TclError(given["text"], given["code"])
    if end == "stopped":
        raise Stopped(given["limit"])
    if end == "exited":
        raise Exited(given["status"])
    raise Cut()
