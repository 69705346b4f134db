#!/usr/bin/env python3
"""Checks what the program says to a person: `tools/said.py PROGRAM`.

Each row is a mistake, or something that happens while it serves: the status, the line on standard output, and what standard error must say. Standard
output and statuses are those of the commands (docs/USE.md); here they only show that the sentences change nothing of them.
"""
import os, pty, re, select, signal, socket, subprocess, sys, tempfile, time

PROGRAM = os.path.abspath(sys.argv[1])
FAILURES = []


def free_port(kind=socket.SOCK_STREAM):
    with socket.socket(socket.AF_INET, kind) as it:
        it.bind(("127.0.0.1", 0))
        return it.getsockname()[1]


def environment(**more):
    kept = {name: value for name, value in os.environ.items() if name != "V2G_QUIET"}
    return {**kept, **more}


def expect(name, ok, shown):
    if not ok:
        FAILURES.append(name)
        print(f"{name}: not as it should be: {shown}")


def row(name, words, status, line, *said, files=(), **how):
    """Runs the words over these files, and compares what they leave."""
    with tempfile.TemporaryDirectory() as folder:
        for file, text in dict(files).items():
            if text is None:
                os.mkdir(f"{folder}/{file}")
            else:
                with open(f"{folder}/{file}", "wb") as it:
                    it.write(text if isinstance(text, bytes) else text.encode())
        how = {"stdin": subprocess.DEVNULL, "stdout": subprocess.PIPE, **how}
        got = subprocess.run([PROGRAM, *words], cwd=folder, stderr=subprocess.PIPE, env=environment(), timeout=100, **how)
        err = got.stderr.decode()
        expect(name, got.returncode == status, f"status {got.returncode}: {err}")
        if line is not None and got.stdout is not None:
            expect(name, got.stdout.decode() == line, f"output {got.stdout}")
        for text in said:
            expect(name, text in err, f"standard error lacks {text!r}: {err!r}")


COMMANDS = ["station PLAN", "car PLAN", "replay PLAN TRACE", "audit PLAN TRACE", "talk STATION CAR SEED", "generate SEED COUNT", "decode DIALECT HEX", "encode DIALECT TEXT", "basic SCRIPT", "migrate TRACE", "offer CALENDAR MOMENT", "schedule NEED HEX", "services CATALOGUE ID", "pick WANT HEX"]


def misused_words():
    row("no words", [], 2, "words\n", "A command is missing", *COMMANDS)
    for word in ("--help", "-h", "help"):
        row(word, [word], 2, "words\n", *COMMANDS, "v2g_charge decode app 80400040")
    row("--version", ["--version"], 2, "words\n", "v2g_charge 1")
    row("an unknown command", ["start", "plan.toml"], 2, "words\n", "no command `start`", *COMMANDS)
    row("no plan", ["station"], 2, "words\n", "`station` wants 1 word behind it, and 0 are there", "Usage: v2g_charge station PLAN")
    row("a word too many", ["car", "a", "b"], 2, "words\n", "`car` wants 1 word behind it, and 2 are there")
    row("no dialect", ["decode", "xml", "00"], 2, "words\n", "`xml` is no DIALECT: write app, iso or din")
    row("no moment", ["offer", "c", "86400"], 2, "words\n", "`86400` is no MOMENT", "0 to 86399")
    row("no identifier", ["services", "c", "65536"], 2, "words\n", "`65536` is no ID", "0 to 65535")
    row("no seed", ["talk", "s", "c", "01"], 2, "words\n", "`01` is no SEED", "0 to 18446744073709551615")
    row("no seed of a list", ["generate", "18446744073709551616", "3"], 2, "words\n", "`18446744073709551616` is no SEED", "0 to 18446744073709551615")
    row("no session", ["generate", "7", "0"], 2, "words\n", "`0` is no COUNT", "1 to 1000", "Usage: v2g_charge generate SEED COUNT")
    row("too many sessions", ["generate", "7", "1001"], 2, "words\n", "`1001` is no COUNT", "1 to 1000")
    row("no count", ["generate", "7"], 2, "words\n", "`generate` wants 2 words behind it, and 1 is there")
    row("no want", ["pick", "Port", "00"], 2, "words\n", "`Port` is no WANT", "NAME=VALUE")
    row("an option", ["station", "-v"], 2, "words\n", "`-v` begins with a dash")


def refused_plans():
    def plan(name, text, key, *said, command="station"):
        command, *more = [command] if isinstance(command, str) else command
        row(name, [command, "plan.toml", *more], 3, f"plan {key}\n", *said, files={"plan.toml": text})

    plan("a number outside its bounds", "sessions = 0\n[[post]]\ntcp = 15120\n", "sessions", "sessions must be 1 to 1000000", "the number 0")
    plan("a key of the wrong kind", "[[post]]\ntcp = 'x'\n", "post.1.tcp", "post.1.tcp must be 1 to 65535", 'the text "x"')
    plan("an unknown key", "[[post]]\ntcp = 15120\ntpc = 1\n", "post.1.tpc", "post.1.tpc must be left out, since there is no such key", "the number 1")
    plan("no TOML", "sessions = \n", "toml", "is no TOML document", "line 1")
    plan("a text too long", "#" * 65_537, "bytes", "bytes must be at most 65536", "longer")
    plan("no posts", "sessions = 1\n", "post", "post is missing, and must be 1 to 8 tables")
    plan("posts that are no list", "post = 3\n", "post", "post must be 1 to 8 tables", "the number 3")
    plan("an empty list of posts", "post = []\n", "post", "post must be 1 to 8 tables", "a list with 0 items")
    plan("nine posts", "[[post]]\ntcp = 15120\n" * 9, "post", "post must be 1 to 8 tables", "a list with 9 items")
    plan("a post that is no table", "post = [{tcp = 15120}, 3]\n", "post", "whose item 2 is no table")
    plan("a car's plan", "soc = 101\ntcp = 15120\n", "soc", "soc must be 0 to 100", "the number 101", command="car")
    plan("a need without its energy", "", "energy", "A need has `energy`", command=["schedule", "80"])
    plan("a car without a port", "", "tcp", "tcp is missing, and must be 1 to 65535", command="car")

    both = {"s": "[[post]]\ntcp = 15120\n", "c": "soc = 101\ntcp = 15120\n"}
    row("the second of two plans", ["talk", "s", "c", "1"], 3, "plan soc\n", "The plan c is refused: soc must be 0 to 100", files=both)
    row("the first of two plans", ["talk", "c", "c", "1"], 3, "plan post\n", "The plan c is refused: post is missing", files=both)


TREE = "supportedAppProtocolRes{ResponseCode=OK_SuccessfulNegotiation SchemaID=1}"
STATION = "[[post]]\ntcp = 15120\n"


def refused_inputs():
    row("an odd number of digits", ["decode", "app", "804"], 4, "input 3\n", "HEX has 3 digits: each byte wants two")
    row("no digit", ["decode", "app", "8x"], 4, "input 1\n", "HEX has 'x' at place 1, counted from 0")
    row("a wrong bit", ["decode", "iso", "809802000000000000000010f0"], 4, "input 94\n", "At bit 94", "bit 6 of its byte 11 (all from 0)")
    row("a payload cut off", ["decode", "app", "8040"], 4, "input 15\n", "or the payload ends inside it: it has 2 bytes")
    row("a wrong character", ["encode", "app", TREE.replace("ID=", "ID:")], 4, None, "At character", "':'")
    row("a text cut off", ["encode", "app", TREE[:-1]], 4, None, "ends before the message does")
    trace = "v2g-trace 2\n1 heard 5 tick\n2 hoard 6 tick\n"
    row("a wrong line", ["replay", "p", "t"], 4, "input 3\n", "Line 3 of t is refused", "It begins: 2 hoard 6 tick", files={"p": STATION, "t": trace})
    row("a trace of the newer format", ["migrate", "t"], 4, "input 1\n", "Line 1 of t is refused: it is no line of a trace of format 1", files={"t": trace})
    row("a wrong line to judge", ["audit", "p", "t"], 4, "input 3\n", "Line 3 of t is refused", files={"p": STATION, "t": trace})
    car = "v2g-trace 2\n1 heard 5 1 came 0000000000000007\n1 sent 1 01fe8001000000228000dbab9371d3234b71d1b981899189d191818991d26b9b3a232b30020000040040\n2 heard 6 over\n"
    row("a car's trace", ["replay", "p", "t"], 0, None, "t is the trace of a car", files={"p": STATION, "t": car})
    row("no plan", ["station", "none.toml"], 7, "source\n", "none.toml can't be read: No such file")
    row("a folder", ["station", "folder"], 7, "source\n", "folder can't be read: Is a directory", files={"folder": None})
    row("no trace", ["replay", "p", "none.trace"], 7, "source\n", "none.trace can't be read: No such file", files={"p": STATION})


def failed_checks():
    came = "v2g-trace 1\nheard 0 1 came 0000000000000001\nheard 40 tick\n"
    two = STATION + "[[post]]\ntcp = 15121\n"
    row("a trace without a fault", ["audit", "p", "t"], 0, "audit ok lines 3\n", files={"p": STATION, "t": came})
    row("an order too early", ["audit", "p", "t"], 9, "audit no line 4 check 1\n", "Line 4 of t (post 2, 40 ms) fails check 1: the contactor was ordered closed", files={"p": two, "t": came + "drove 2 close\n"})
    row("an answer to nobody", ["audit", "p", "t"], 9, "audit no line 4 check 9\n", "Line 4 of t (post 1, 40 ms) fails check 9: what was sent", files={"p": two, "t": came + "sent 1 00\n"})
    second = "heard 40 2 came 0000000000000002\n"
    frame = " bytes 01fe8001000000228000dbab9371d3234b71d1b981899189d181818991d26b9b3a232b30020000040040\n"
    row("a message without an answer", ["audit", "p", "t"], 9, "audit no line 4 check 10\n", "Line 4 of t (post 1, 50 ms) fails check 10: a message of the car", files={"p": STATION, "t": came + "heard 50 1" + frame})
    row("the same at the second post", ["audit", "p", "t"], 9, "audit no line 5 check 10\n", "Line 5 of t (post 2, 50 ms) fails check 10", files={"p": two, "t": came + second + "heard 50 2" + frame})


def refused_ports():
    with socket.create_server(("127.0.0.1", 0)) as listener, socket.socket(socket.AF_INET, socket.SOCK_DGRAM) as datagrams:
        taken = listener.getsockname()[1]
        datagrams.bind(("127.0.0.1", 0))
        sdp = datagrams.getsockname()[1]
        row("a port that is taken", ["station", "p"], 5, "wire\n", f"post 1 can't listen at TCP port {taken}", "Another program has it", files={"p": f"[[post]]\ntcp = {taken}\n"})
        row("a UDP port that is taken", ["station", "p"], 5, "wire\n", f"UDP port {sdp}", "Another program has it", files={"p": f"[[post]]\ntcp = {free_port()}\nsdp = {sdp}\n"})
    port = free_port()
    row("a port twice in the plan", ["station", "p"], 5, "wire\n", f"post 2 can't listen at TCP port {port}", "gives that port to post 1 too", files={"p": f"[[post]]\ntcp = {port}\n" * 2})
    row("a car without a station", ["car", "p"], 5, "wire\n", f"no connection to TCP port {port}", "No station listens there", files={"p": f"tcp = {port}\n"})
    if os.geteuid() == 0 and os.path.exists("/usr/bin/setpriv"):
        with tempfile.TemporaryDirectory() as folder:
            os.chmod(folder, 0o755)
            with open(f"{folder}/p", "w") as it:
                it.write("[[post]]\ntcp = 80\n")
            subprocess.run(["cp", PROGRAM, f"{folder}/v2g"], check=True)
            words = ["setpriv", "--reuid=65534", "--bounding-set=-all", "--inh-caps=-all", f"{folder}/v2g", "station", "p"]
            got = subprocess.run(words, cwd=folder, capture_output=True, env=environment(), stdin=subprocess.DEVNULL)
            if got.returncode == 5:
                expect("a port below 1024", b"below 1024" in got.stderr, got.stderr)


def unwritten():
    with open("/dev/full", "wb") as full:
        row("a full output", ["decode", "app", "80400040"], 6, None, "Standard output can't be written: No space left", stdout=full)
    files = {"p": f"[[post]]\ntcp = {free_port()}\n", "v2g.trace": None}
    row("a trace that can't be made", ["station", "p"], 6, None, "The trace v2g.trace can't be written", files=files)
    port = free_port()
    station = Running("station", f"turns = 1\n[[post]]\ntcp = {port}\n")
    with connect(port):
        status, out, err = station.end()
    expect("too few hearings", status == 8 and out.endswith("turns\n") and "`turns` of the plan" in err, (status, out, err))


class Running:
    """A program that runs in a folder of its own."""

    def __init__(self, command, plan, stdin=subprocess.DEVNULL, **more):
        self.folder = tempfile.TemporaryDirectory()
        with open(f"{self.folder.name}/plan.toml", "w") as it:
            it.write(plan)
        self.process = subprocess.Popen([PROGRAM, command, "plan.toml"], cwd=self.folder.name, stdin=stdin, stdout=subprocess.PIPE, stderr=subprocess.PIPE, env=environment(**more))
        self.said = b""

    def wait_for(self, text, seconds=60):
        """Reads standard error until it has the text."""
        until = time.monotonic() + seconds
        while text.encode() not in self.said and time.monotonic() < until:
            if select.select([self.process.stderr], [], [], 0.1)[0]:
                piece = os.read(self.process.stderr.fileno(), 4096)
                if not piece:
                    break
                self.said += piece
        return text.encode() in self.said

    def end(self):
        out, err = self.process.communicate(timeout=100)
        return self.process.returncode, out.decode(), (self.said + err).decode()


def connect(port):
    for _ in range(2000):
        try:
            return socket.create_connection(("127.0.0.1", port), 5)
        except ConnectionRefusedError:
            time.sleep(0.005)
    sys.exit("no station came up")


def connect_when_up(port):
    """Waits for a station to listen, by the system's table, since a connection would count as a session."""
    wanted = f":{port:04X} 00000000:0000 0A"
    for _ in range(5000):
        with open("/proc/net/tcp") as file:
            if wanted in file.read():
                return
        time.sleep(0.005)
    sys.exit("no station came up")


def served():
    port, sdp = free_port(), free_port(socket.SOCK_DGRAM)
    other = free_port()
    din = Running("station", f"[[post]]\ntcp = {other}\ndialects = ['din']\n", V2G_QUIET="1")
    connect_when_up(other)
    din_car = Running("car", f"tcp = {other}\ncycles = 101\n")
    station = Running("station", f"[[post]]\ntcp = {port}\nsdp = {sdp}\n")
    expect("a station listens", station.wait_for("Ctrl-C"), station.said)
    car = Running("car", f"sdp = {sdp}\ncycles = 105\n")
    status, out, err = car.end()
    expect("a car", (status, out) == (0, "cycles 105 cause 1\n"), (status, out, err))
    for text in (f"looks for a post at UDP port {sdp}", f"dials its TCP port {port}", f"connected to 127.0.0.1:{port}", "negotiated ISO 15118-2", "cycle 100 after", "cause 1 Stopped"):
        expect("a car says", text in err, f"{text}: {err}")
    status, out, err = station.end()
    expect("a station", (status, out) == (0, "post 1 sessions 1 closed 1 causes 00000002\n"), (status, out, err))
    for text in (f"post 1 listens at TCP port {port} of 127.0.0.1, discovery at UDP port {sdp}", "ended connections, whoever makes them, is 1 ", "post 1: a session begins, with 127.0.0.1:", "cause 1 Stopped", "orders: 1 close, ", "as `sessions` of its plan says"):
        expect("a station says", text in err, f"{text}: {err}")


    status, out, err = din_car.end()
    expect("a car of DIN", (status, out) == (0, "cycles 101 cause 1\n"), (status, out, err))
    for text in (f"dials TCP port {other} of 127.0.0.1", "negotiated DIN SPEC 70121", "cycle 100 after"):
        expect("a car of DIN says", text in err, f"{text}: {err}")
    expect("its station is quiet", din.end()[2] == "", "it isn't")


def quiet():
    port = free_port()
    station = Running("station", f"[[post]]\ntcp = {port}\n", V2G_QUIET="1")
    connect(port).close()
    status, _, err = station.end()
    expect("a quiet station", (status, err) == (0, ""), (status, err))


def stopped():
    """A station that is asked to stop opens what is closed, and its trace is whole."""
    port = free_port()
    plan = f"sessions = 20\n[[post]]\ntcp = {port}\n"
    station = Running("station", plan, stdin=subprocess.PIPE)
    expect("it can be asked to stop", station.wait_for("the line `stop`"), station.said)
    car = Running("car", f"tcp = {port}\ncycles = 10000\n")
    expect("the car charges", car.wait_for("cycle 100"), car.said)
    station.process.stdin.write(b"no\nstop\n")
    station.process.stdin.flush()
    status, out, err = station.end()
    expect("a stopped station", (status, out) == (0, "post 1 sessions 1 closed 1 causes 00040000\n"), (status, out, err))
    for text in ("asked to stop", "cause 18 RunOver"):
        expect("a stopped station says", text in err, err)
    with open(f"{station.folder.name}/v2g.trace") as it:
        trace = it.read()
    expect("a stopped trace", re.search(r" over\n(?:.*\n)*\d+ drove 1 open\n", trace), trace[-400:])
    folder = station.folder.name
    os.rename(f"{folder}/v2g.trace", f"{folder}/run.trace")
    subprocess.run([PROGRAM, "replay", "plan.toml", "run.trace"], cwd=folder, stdout=subprocess.DEVNULL, check=True)
    with open(f"{folder}/v2g.trace") as it:
        expect("a stopped trace replays to itself", it.read() == trace, "")
    car.end()


def not_stopped():
    """Neither the end of a pipe, nor an input that is closed, ends a station."""
    for name, stdin in (("a pipe that ended", subprocess.PIPE), ("no input", None), ("/dev/null", subprocess.DEVNULL)):
        port = free_port()
        more = {}
        if stdin is None:
            folder = tempfile.TemporaryDirectory()
            with open(f"{folder.name}/p", "w") as it:
                it.write(f"[[post]]\ntcp = {port}\n")
            process = subprocess.Popen(["sh", "-c", 'exec "$0" station p <&-', PROGRAM], cwd=folder.name, stdout=subprocess.PIPE, stderr=subprocess.PIPE, env=environment())
        else:
            station = Running("station", f"[[post]]\ntcp = {port}\n", stdin=stdin)
            process = station.process
        if stdin == subprocess.PIPE:
            process.stdin.close()
            process.stdin = None
        with connect(port):
            time.sleep(0.3)
            expect(name, process.poll() is None, "it ended")
        out, err = process.communicate(timeout=100)
        expect(name, (process.returncode, out) == (0, b"post 1 sessions 1 closed 0 causes 00008000\n"), (process.returncode, out, err))


def at_a_terminal(name, keys):
    """A station whose input is a terminal."""
    port = free_port()
    with tempfile.TemporaryDirectory() as folder:
        with open(f"{folder}/p", "w") as it:
            it.write(f"[[post]]\ntcp = {port}\n")
        pid, terminal = pty.fork()
        if pid == 0:
            os.chdir(folder)
            os.execve(PROGRAM, [PROGRAM, "station", "p"], environment())
        with connect(port):
            os.write(terminal, keys)
            until = time.monotonic() + 20
            while time.monotonic() < until:
                ended, status = os.waitpid(pid, os.WNOHANG)
                if ended:
                    return expect(name, os.waitstatus_to_exitcode(status) == 0, status)
                if select.select([terminal], [], [], 0.05)[0]:
                    try:
                        os.read(terminal, 4096)
                    except OSError:
                        pass
        expect(name, False, "it runs on")
        os.kill(pid, signal.SIGKILL)
        os.waitpid(pid, 0)


for check in (misused_words, refused_plans, refused_inputs, failed_checks, refused_ports, unwritten, served, quiet, stopped, not_stopped):
    check()
at_a_terminal("the line stop at a terminal", b"stop\n")
at_a_terminal("Ctrl-D at a terminal", b"\x04")
print(f"said.py: {len(FAILURES)} rows differ" if FAILURES else "said.py: all rows as they should be")
sys.exit(1 if FAILURES else 0)
