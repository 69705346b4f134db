#!/usr/bin/env python3
"""Times replies of a station: see bench/echo."""
import multiprocessing, os, random, socket, struct, subprocess, sys, tempfile, time

PROGRAM, SCENE = os.path.abspath(sys.argv[1]), sys.argv[2]
SECONDS = float(os.environ.get("SECONDS_EACH", "20"))
PORT = 15120
SDP = 15130
NEGOTIATION = bytes.fromhex("01fe8001000000228000dbab9371d3234b71d1b981899189d191818991d26b9b3a232b30020000040040")
PACE = 0.01
ECHO = """
import socket
listener = socket.create_server(("127.0.0.1", 15120))
for _ in range(10):
    connection, _ = listener.accept()
    connection.setsockopt(socket.IPPROTO_TCP, socket.TCP_NODELAY, 1)
    connection.sendall(connection.recv(4096)[:12])
    connection.recv(1)
    connection.close()
"""


def connect(port, room=None):
    for _ in range(5000):
        connection = socket.socket()
        if room:
            connection.setsockopt(socket.SOL_SOCKET, socket.SO_RCVBUF, room)
        connection.settimeout(20)
        try:
            connection.connect(("127.0.0.1", port))
        except ConnectionRefusedError:
            connection.close()
            time.sleep(0.002)
            continue
        connection.setsockopt(socket.IPPROTO_TCP, socket.TCP_NODELAY, 1)
        return connection
    sys.exit("no server came up")


def told(name, times):
    times.sort()
    count = len(times)
    if not count:
        sys.exit(f"{name}: no reply")
    print(f"{name}: 50% {times[count // 2]:.0f} us, 99% {times[count * 99 // 100]:.0f} us, greatest {times[-1]:.0f} us ({count} replies)", flush=True)
    return times[-1]


def run_station(folder, plan):
    with open(f"{folder}/plan.toml", "w") as file:
        file.write(plan)
    return subprocess.Popen([PROGRAM, "station", "plan.toml"], cwd=folder, stdin=subprocess.DEVNULL, stdout=subprocess.DEVNULL, stderr=subprocess.DEVNULL)


# ---- one reply a connection, beside an echo server


def sample():
    with connect(PORT) as connection:
        begun = time.perf_counter_ns()
        connection.sendall(NEGOTIATION)
        got = b""
        while len(got) < 12:
            got += connection.recv(4096) or sys.exit("the connection ended early")
        return (time.perf_counter_ns() - begun) / 1000


def echo():
    for name in ("station", "echo"):
        times = []
        for _ in range(60):
            with tempfile.TemporaryDirectory() as folder:
                if name == "station":
                    server = run_station(folder, f"sessions = 10\n[[post]]\ntcp = {PORT}\n")
                else:
                    server = subprocess.Popen([sys.executable, "-c", ECHO])
                times += [sample() for _ in range(10)]
                server.wait(10)
        told(name, times)


# ---- cars in a charging loop


# The numbers of three requests among the bodies of a message.
CABLE_CHECK, POWER_DELIVERY, CURRENT_DEMAND = 3, 21, 13


def is_message(frame):
    """Whether a frame holds a message of ISO 15118-2 or DIN SPEC 70121, and not of the negotiation."""
    return frame[9] >> 1 in (76, 77)


def kind_of(frame):
    """The number of a request among the bodies of a message, which stands at fixed bits; None for the negotiation."""
    return (frame[19] & 3) << 4 | frame[20] >> 4 if is_message(frame) else None


def recorded():
    """The requests of a car up to its first CurrentDemandReq, each with its moment in seconds behind the connection.

    The charger has a second more to find the isolation valid before CableCheck, which is asked once, and to reach its voltage in PreCharge, since
    both come by time.
    """
    with tempfile.TemporaryDirectory() as folder:
        os.mkdir(f"{folder}/car")
        station = run_station(folder, f"[[post]]\ntcp = {PORT}\n")
        connect_when_up()
        with open(f"{folder}/car/car.toml", "w") as file:
            file.write(f"tcp = {PORT}\ncycles = 2\n")
        subprocess.run([PROGRAM, "car", "car.toml"], cwd=f"{folder}/car", check=True, stdin=subprocess.DEVNULL, stdout=subprocess.DEVNULL, stderr=subprocess.DEVNULL)
        station.wait(20)
        heard, requests, came, late = {}, [], 0, 0
        with open(f"{folder}/car/v2g.trace") as file:
            for words in map(str.split, file):
                if words[1] == "heard":
                    heard[words[0]] = int(words[2])
                    if len(words) > 4 and words[4] == "came":
                        came = int(words[2])
                elif words[1] == "sent":
                    frame = bytes.fromhex(words[3])
                    moment = (heard[words[0]] - came) / 1000
                    if kind_of(frame) == CABLE_CHECK:
                        if late:
                            continue
                        late = 1
                    if kind_of(frame) == POWER_DELIVERY:
                        requests += [(moment + late + tenth / 10, requests[-1][1]) for tenth in range(10)]
                        late += 1
                    requests.append((moment + late, frame))
                    if kind_of(frame) == CURRENT_DEMAND:
                        return requests
    sys.exit("the car sent no CurrentDemandReq")


def connect_when_up():
    """Waits for the station to listen, by the system's table, since a connection would count as a session."""
    wanted = f":{PORT:04X} 00000000:0000 0A"
    for _ in range(5000):
        with open("/proc/net/tcp") as file:
            if wanted in file.read():
                return
        time.sleep(0.005)
    sys.exit("no station came up")


class Car:
    """A car that asks what was recorded, in a session of its own."""

    def __init__(self, port, requests, room=None):
        self.connection = connect(port, room)
        self.requests = requests
        self.session = None

    def frame(self, frame):
        """The same request in this car's session, whose eight bytes stand behind 26 bits of the payload."""
        if self.session is None or not is_message(frame):
            return frame
        bits = 8 * (len(frame) - 8)
        payload = int.from_bytes(frame[8:])
        shift = bits - 26 - 64
        payload = payload & ~((2**64 - 1) << shift) | self.session << shift
        return frame[:8] + payload.to_bytes(bits // 8)

    def ask(self, frame):
        """Asks, and answers the microseconds until the reply is there."""
        frame = self.frame(frame)
        begun = time.perf_counter_ns()
        self.connection.sendall(frame)
        reply = b""
        while len(reply) < 8 or len(reply) < 8 + int.from_bytes(reply[4:8]):
            piece = self.connection.recv(4096)
            if not piece:
                raise ConnectionError("the connection ended")
            reply += piece
        took = (time.perf_counter_ns() - begun) / 1000
        if self.session is None and is_message(reply):
            bits = 8 * (len(reply) - 8)
            self.session = int.from_bytes(reply[8:]) >> bits - 26 - 64 & 2**64 - 1
        return took

    def begin(self):
        """Goes as far as the charging loop."""
        begun = time.monotonic()
        for moment, frame in self.requests:
            time.sleep(max(0, begun + moment - time.monotonic()))
            self.ask(frame)


def quiet(port, requests, ready, until, times):
    """A car that charges, and times each reply in its loop."""
    car = Car(port, requests)
    car.begin()
    ready.wait()
    took = []
    while time.monotonic() < until.value:
        time.sleep(PACE)
        took.append(car.ask(requests[-1][1]))
    times.put(took)


def again(act):
    """Does this until it is ended, whatever becomes of the connection."""
    while True:
        try:
            act()
        except (OSError, ConnectionError):
            time.sleep(0.001)


def reads_nothing(port, requests):
    """Charges, then asks on and on without reading a reply."""

    def act():
        car = Car(port, requests, room=2048)
        car.begin()
        frame = car.frame(requests[-1][1])
        while True:
            car.connection.sendall(frame)

    again(act)


def sends_a_hundred(port, requests):
    """Charges, and sends a hundred requests in a piece, on and on."""

    def act():
        car = Car(port, requests)
        car.begin()
        frames = car.frame(requests[-1][1]) * 100
        while True:
            car.connection.sendall(frames)
            got = 0
            while got < 100:
                piece = car.connection.recv(65536)
                if not piece:
                    raise ConnectionError
                got += piece.count(b"\x01\xfe\x80\x01")

    again(act)


def comes_and_goes(port, _requests):
    """Connects, asks and leaves, as fast as it can."""

    def act():
        with connect(port) as connection:
            connection.sendall(NEGOTIATION)
            connection.setsockopt(socket.SOL_SOCKET, socket.SO_LINGER, struct.pack("ii", 1, 0))

    again(act)


def talks_rubbish(port, _requests):
    """Sends random bytes on connections, and datagrams to the discovery."""
    datagrams = socket.socket(socket.AF_INET, socket.SOCK_DGRAM)

    def act():
        with connect(port) as connection:
            for _ in range(100):
                datagrams.sendto(random.randbytes(random.randrange(64)), ("127.0.0.1", SDP))
            connection.sendall(bytes.fromhex("01fe8001") + random.randbytes(500))
            connection.recv(1)

    again(act)


def scene(name, requests, cars, peers):
    """Times the replies of so many cars beside these peers, for as long as a scene lasts."""
    plan = "limit = 8000000\nsessions = 1000000\nturns = 4294967296\n"
    plan += "".join(f"[[post]]\ntcp = {PORT + place}\nsdp = {SDP if place == 7 else 0}\n" for place in range(8))
    with tempfile.TemporaryDirectory() as folder:
        station = run_station(folder, plan)
        connect_when_up()
        ready, until, times = multiprocessing.Barrier(cars + 1), multiprocessing.Value("d", 0), multiprocessing.Queue()
        running = [multiprocessing.Process(target=quiet, args=(PORT + place, requests, ready, until, times), daemon=True) for place in range(cars)]
        hostile = [multiprocessing.Process(target=peer, args=(PORT + 7 - place, requests), daemon=True) for place, peer in enumerate(peers)]
        for each in running + hostile:
            each.start()
        until.value = time.monotonic() + 1000
        time.sleep(8)
        ready.wait(60)
        until.value = time.monotonic() + SECONDS
        took = [time for _ in range(cars) for time in times.get(timeout=SECONDS + 60)]
        for each in hostile:
            each.terminate()
        for each in running + hostile:
            each.join()
        station.terminate()
        station.wait()
    return told(name, took)


def load():
    requests = recorded()
    scene("one car", requests, 1, [])
    scene("eight cars at once", requests, 8, [])
    scene("four cars", requests, 4, [])
    scene("four cars beside four hostile peers", requests, 4, [reads_nothing, sends_a_hundred, comes_and_goes, talks_rubbish][::-1])


def stalls():
    if "V2G_NAMESPACE" not in os.environ:
        name = f"v2g_{os.getpid()}"
        inside = ["ip", "netns", "exec", name]
        subprocess.run(["ip", "netns", "add", name], check=True)
        try:
            subprocess.run([*inside, "ip", "link", "set", "lo", "up"], check=True)
            subprocess.run([*inside, "sysctl", "-q", "-w", "net.ipv4.tcp_wmem=4096 4096 4096"], check=True)
            subprocess.run([*inside, sys.executable, *sys.argv], check=True, env={**os.environ, "V2G_NAMESPACE": name})
        finally:
            subprocess.run(["ip", "netns", "delete", name], check=True)
        return
    requests = recorded()
    alone = scene("a car alone", requests, 1, [])
    for name, peers in (("beside one peer that sends a hundred requests in a piece", [sends_a_hundred]), ("beside seven peers that read nothing", [reads_nothing] * 7)):
        greatest = scene(f"a car {name}", requests, 1, peers)
        print(f"    {greatest / alone:.1f} times the greatest of the car alone", flush=True)


{"echo": echo, "load": load, "stalls": stalls}[SCENE]()
