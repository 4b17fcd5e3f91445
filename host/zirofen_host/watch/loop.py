"""From events to checks of what they concern, and from these to messages of what differs: the watch itself."""
import functools
import os
import select
import signal
import socket
import time
from typing import Callable, Dict, List, NamedTuple, Optional, Sequence, Set, Tuple, Union

from zirofen_host import fault
from zirofen_host.collect import bounded
from zirofen_host.collect.accounts import charged_user_of
from zirofen_host.collect.attempts import why_of
from zirofen_host.judge.model import Report
from zirofen_host.options import EVERYBODY, WatchOptions
from zirofen_host.profile import ROOT, CgroupPath, path_of, shown, text_of
from zirofen_host.watch import checks, known, lanes
from zirofen_host.watch.checks import Child, Failed, Result
from zirofen_host.watch.events import Events
from zirofen_host.watch.findings import Findings
from zirofen_host.watch.kernel import CREATE, FolderWatch, source_of
from zirofen_host.watch.lanes import Asked, Lane, Lanes
from zirofen_host.watch.messages import LIMIT, WATCH, Message
from zirofen_host.watch.numbers import Numbers

# seconds from one reading of processes, and from one check of the whole host, to the next
MINUTE, HOUR = 60.0, 3600.0
# seconds from one check of the whole host that a check of a part asked for to the next
AFTER_DEEP = 5.0
# seconds until a container that was made is looked at once more
SETTLING = 1.0
# checks that run beside root's
BESIDE = 4
# seconds that a check may take
SECONDS = 600
ACCOUNTS = (b"passwd", b"group", b"subuid", b"subgid")
ENDING = (signal.SIGTERM, signal.SIGINT, signal.SIGHUP)

# writes a report in the ways that were asked for
Write = Callable[[Report, float], None]


class Outside(NamedTuple):
    """Where a watch tells of what it found, and of how it goes."""
    tell: Callable[[Message], None]
    # the forms of a report, for who asks for them by a signal, and at the end
    write: Write
    is_written_at_end: bool
    is_full: bool
    # the numbers, behind those of the last check of the whole host
    leave_numbers: Optional[Callable[[str, Numbers], None]]
    # words for the service manager, and the seconds within which it wants to hear
    manager: Callable[..., None]
    within: Optional[float]
    go_on: Callable[[], None]


class Running(NamedTuple):
    child: "Child[Result]"
    asked: Asked
    lane: Lane
    is_written: bool
    began: float


class Loop:
    """A watch of one host."""

    def __init__(self, options: WatchOptions, outside: Outside, baseline: Optional[known.Items]) -> None:
        self.options, self.outside = options, outside
        self.findings = Findings(outside.tell, baseline)
        self.poll = select.poll()
        self.lanes = Lanes(time.monotonic())
        self.owners = lanes.Owners(self.findings.entries.owner_of, charged_user_of(options.accounts))
        self.running: Dict[int, Running] = {}
        # what was asked while another check runs that began before, with when
        self.done: List[Tuple[float, known.Asked]] = []
        self.reading: Optional["Child[str]"] = None
        self.processes, self.mounts = "", checks.mounts_seen(options)
        self.has_begun = self.is_ending = self.is_asked_for_forms = self.is_listening = self.has_surveyed = self.has_lost = False
        now = time.monotonic()
        self.next_minute, self.next_hour = now + MINUTE, now + HOUR
        self.next_lost, self.next_word, self.next_deep = now, now, now
        self.limits: Set[str] = set()
        self.began, self.last_check, self.lost = time.time(), 0.0, 0
        self.metrics = ""
        self.events = Events(source_of(options.mount, options.plain_folder, self.without_pids), options.proc, self.lanes, self.owners)
        self.source = self.events.source
        self.accounts = FolderWatch(options.accounts or "/etc", ACCOUNTS)
        self.mountinfo = -1 if options.plain_folder else bounded.open_named("/proc/self/mountinfo")
        self.woken, self.waker = socket.socketpair()
        self.register()

    def register(self) -> None:
        for each in (self.woken, self.waker):
            each.setblocking(False)
        signal.set_wakeup_fd(self.waker.fileno(), warn_on_full_buffer=False)
        for number in ENDING:
            signal.signal(number, lambda *_: setattr(self, "is_ending", True))
        signal.signal(signal.SIGUSR1, lambda *_: setattr(self, "is_asked_for_forms", True))
        for opened in (self.accounts.fileno(), self.woken.fileno()):
            self.poll.register(opened, select.POLLIN)
        if self.mountinfo >= 0:
            self.poll.register(self.mountinfo, select.POLLPRI)

    # messages

    def say(self, kind: str, line: str) -> None:
        self.outside.tell(Message(kind, line, time.time()))

    def limit(self, what: str, line: str) -> None:
        """What narrows the answers, once in an hour."""
        if what not in self.limits:
            self.limits.add(what)
            self.say(LIMIT, line)

    def without_pids(self, why: str) -> None:
        self.limit("pids", f"events don't name who did it: fanotify refuses the hierarchy here ({why}), and inotify reports it")

    # the loop

    def run(self) -> None:
        """Watches until a signal ends it."""
        self.source.drain.begin()
        self.source.watch(ROOT)
        self.begin_with_roots()
        while not self.is_ending:
            self.turn()
        self.end()

    def begin_with_roots(self) -> None:
        """The first check: of what is root's, so that events have somebody to go to."""
        self.ask_whole("the first check")
        self.lanes.host.first -= lanes.LONGEST_BURST

    def turn(self) -> None:
        """Waits for what comes next, and does it."""
        ready = [opened for opened, _ in self.poll.poll(self.milliseconds())]
        now = time.monotonic()
        # what a check found is told with what its events say, so these come first
        if now >= self.events.next_read or any(opened in self.running for opened in ready):
            self.take_events(now)
        for opened in ready:
            self.ready(opened)
        now = time.monotonic()
        self.by_the_clock(now)
        self.lanes.refill(now)
        self.name_who_waits()
        self.start_checks(now)
        self.outside.go_on()
        if now >= self.next_word and self.has_surveyed:
            self.next_word = now + (self.outside.within or MINUTE)
            self.outside.manager("WATCHDOG=1")

    def milliseconds(self) -> float:
        """How long nothing is to be done."""
        now = time.monotonic()
        due = (lane.due() for lane in self.lanes.all.values())
        whens = [self.next_minute, self.next_hour, self.next_word, *([self.next_lost] if self.has_lost else []),
                 *(when for when in due if when is not None)]
        self.listen(self.events.next_read <= now)
        if not self.is_listening:
            whens.append(self.events.next_read)
        return max(min(whens) - now, 0.0) * 1000 + 1

    def listen(self, is_listening: bool) -> None:
        """Waits for events, or lets them gather."""
        if self.is_listening == is_listening:
            return
        self.is_listening = is_listening
        if is_listening:
            self.poll.register(self.source.drain.fileno(), select.POLLIN)
        else:
            self.poll.unregister(self.source.drain.fileno())

    def ready(self, opened: int) -> None:
        if opened == self.woken.fileno():
            bounded.read_ready(opened, 4096)
        elif opened == self.accounts.fileno():
            if self.accounts.has_changed():
                self.owners.charged_user = charged_user_of(self.options.accounts)
                self.ask_whole("accounts or groups changed")
        elif opened == self.mountinfo:
            self.look_at_mounts()
        elif opened in self.running:
            self.ended(opened)
        elif self.reading and opened == self.reading.fileno():
            self.has_read()

    def ask_whole(self, why: str) -> None:
        self.lanes.host.ask_whole(time.monotonic(), why, False)

    def ask_all(self, why: str, is_whole: bool) -> None:
        """Has everybody's asked of. Where that doesn't have to be one check, whoever changes something now is asked of in their own lane:
        what changes is looked at ten times, and of 10,000 cgroups that can take minutes."""
        self.lanes.deep.ask_whole(time.monotonic(), why, is_whole)

    @property
    def has_numbers(self) -> bool:
        """Whether numbers are written, which are those of all of it."""
        return self.outside.leave_numbers is not None

    def look_at_mounts(self) -> None:
        found = checks.mounts_seen(self.options)
        if found != self.mounts:
            self.mounts = found
            self.ask_whole("mounts changed")

    # what is asked

    def take_events(self, now: float) -> None:
        taken = self.events.take(now)
        if taken.is_lost:
            self.events_were_lost()
        if taken.is_short:
            self.ask_of_unknown(now)

    def ask_of_unknown(self, now: float) -> None:
        """Has those asked once more who made folders before a check of theirs that goes on: it may have read a folder before what happened
        in it. Whatever else isn't known was made since, and waits to be asked of with the folder that it was made in."""
        for run in self.running.values():
            if run.lane.person > lanes.HOST and run.asked.has_made_folders:
                run.lane.add(run.asked.part, now)

    def events_were_lost(self) -> None:
        """Has all of it asked again, at most once in a minute: what is lost within one, at its end."""
        self.lost += 1
        self.limit("lost", "events were lost, since more happened than a kernel keeps: all is asked again, at most once in a minute")
        self.has_lost = True

    def by_the_clock(self, now: float) -> None:
        if self.has_lost and now >= self.next_lost:
            self.has_lost, self.next_lost = False, now + MINUTE
            self.ask_whole("events were lost")
        if now >= self.next_minute:
            self.next_minute = now + MINUTE
            if self.reading is None:
                options = self.options
                self.reading = Child(lambda: checks.sum_of_processes(options), SECONDS)
                self.poll.register(self.reading.fileno(), select.POLLIN)
            self.count()
        if now >= self.next_hour:
            self.next_hour = now + HOUR
            self.limits.clear()
            self.lanes.named.clear()
            self.findings.begin_hour()
            self.ask_all("the hourly check", self.has_numbers)
        if self.is_asked_for_forms and not self.lanes.deep.is_running:
            self.is_asked_for_forms = False
            self.lanes.deep.ask_whole(now, "a check of all of it that a signal asked for")
            self.start(self.lanes.deep, self.outside.write)

    def name_who_waits(self) -> None:
        for person in self.lanes.newly_waiting():
            whose, part = (f"uid {person} changes", "a tenth") if person else ("root changes", "three tenths")
            self.say(LIMIT, f"{whose} more than is asked of at once: answers about what they hold wait for {part} of a processor")

    def start_checks(self, now: float) -> None:
        """Starts each check that is due."""
        beside = sum(each.lane.person > lanes.HOST for each in self.running.values())
        while True:
            lane = self.lanes.next(lambda each: each.person <= lanes.HOST or beside < BESIDE)
            due = lane.due() if lane else None
            if lane is None or due is None or due > now:
                return
            beside += lane.person > lanes.HOST
            self.start(lane)

    def start(self, lane: Lane, write: Optional[Write] = None) -> None:
        is_urgent, asked = self.is_urgent(lane, write), lane.take()
        shallow = () if asked.is_whole else self.shallow(lane)
        part = asked.part if self.is_there(asked.part) else self.nearest(asked.part)
        asked = asked._replace(part=part)
        if lane.person <= lanes.HOST and self.has_surveyed:
            self.ask_of_left_out(asked, shallow)
        began = time.monotonic()
        look = functools.partial(checks.look, self.options, part, shallow, write, write is not None and self.outside.is_full)
        child: "Child[Result]" = Child(look, self.options.seconds or SECONDS, is_urgent)
        self.running[child.fileno()] = Running(child, asked, lane, write is not None, began)
        self.poll.register(child.fileno(), select.POLLIN)

    def is_urgent(self, lane: Lane, write: Optional[Write]) -> bool:
        """Whether a check comes before others: nobody waits for one of all of it that no change asked for."""
        return lane.is_urgent and (lane.person != lanes.DEEP or not self.has_begun or bool(lane.touched) or write is not None)

    def shallow(self, lane: Lane) -> Sequence[int]:
        """Inside of whose nothing is read: of everybody's until a check of all of it has ended, which shows who has much of their own, and
        then of theirs who have, or wait for it; and by a check of all of it of whoever changes something."""
        if lane.person == lanes.DEEP:
            return self.lanes.busy()
        if not self.has_begun and lane.person == lanes.HOST:
            return (EVERYBODY,)
        many = self.owners.many(self.findings.entries.all) if lane.person == lanes.HOST else ()
        return sorted({*self.lanes.shallow(lane.person), *many})

    def ask_of_left_out(self, asked: Asked, persons: Sequence[int]) -> None:
        """Has those inside of whose nothing is read asked of in their own lanes: what root changed may concern what they hold."""
        now = time.monotonic()
        for person, part in self.owners.parts_of(persons, self.findings.entries.all, asked.part).items():
            lane = self.lanes.of(person, now)
            lane.give_back(asked)
            lane.add(part, now)
            lane.why = lane.why or asked.why

    def is_there(self, path: CgroupPath) -> bool:
        return path == ROOT or os.path.isdir(os.fsencode(self.options.mount) + path)

    def nearest(self, path: CgroupPath) -> CgroupPath:
        """A cgroup that went is asked of by the nearest one above it that is there."""
        while not self.is_there(path):
            path = CgroupPath(path.rpartition(b"/")[0]) or ROOT
        return path

    # what was found

    def ended(self, opened: int) -> None:
        """Takes what a check found."""
        run = self.running.pop(opened)
        self.poll.unregister(opened)
        made = run.child.made()
        run.lane.is_running = False
        if self.has_surveyed:
            # nobody changed anything for the first
            self.lanes.spend(run.asked, run.child.seconds, time.monotonic())
        if isinstance(made, Failed):
            self.failed(run, made)
            return
        self.last_check = time.time()
        # each once: a check that took long has many behind it
        since = dict.fromkeys(asked for began, asked in self.done if began > run.began and asked.concerns(made.part.path))
        made = made._replace(part=made.part._replace(since=tuple(since)))
        oldest = min((each.began for each in self.running.values()), default=time.monotonic())
        self.done = [(began, asked) for began, asked in (*self.done, (run.began, made.part.asked)) if began > oldest]
        self.metrics = made.metrics or self.metrics
        self.compare(run, made)
        self.watch_all(run, made)
        if made.has_containers and any(each.mask & CREATE for each in run.asked.touched.values()):
            # what runs in one comes behind its cgroup
            run.lane.add(run.asked.part, time.monotonic() + SETTLING - lanes.QUIET)
        self.count()

    def begin(self, run: Running, made: Result, needs_whole: bool) -> None:
        """The first check of what is root's is behind it, or that of all of it."""
        if run.lane.person == lanes.HOST:
            self.has_surveyed = True
            self.say(WATCH, f"{shown(self.options.mount)} is watched{'' if self.source.has_pids else ', without who does it'}")
            self.outside.manager("READY=1", "STATUS=watching")
            # a moment later it is seen who changes something
            self.ask_all("the first check", False)
        else:
            self.has_begun = True
            self.say(WATCH, f"{len(made.part.there)} cgroups were asked of; {made.sum_line}")
            if made.part.without and (self.has_numbers or needs_whole):
                self.ask_all("a check of all of it", True)

    def failed(self, run: Running, failed: Failed) -> None:
        """A check that found nothing is reported, and its part is asked once more; the first has to find something."""
        if not self.has_surveyed:
            raise fault.Fault(failed.why)
        if not self.is_there(run.asked.part):
            run.lane.add(self.nearest(run.asked.part), time.monotonic())
            return
        self.limit(f"check {failed.why}", f"a check of {shown(text_of(run.asked.part))} found nothing: {failed.why}")
        self.has_begun |= run.lane.person == lanes.DEEP
        run.lane.payers.update(run.asked.payers)
        run.lane.add(run.asked.part, time.monotonic() + MINUTE)

    def compare(self, run: Running, made: Result) -> None:
        """Reports what differs, and asks more where that takes it."""
        is_first = run.lane.person == lanes.HOST and not self.has_surveyed or run.lane.person == lanes.DEEP and not self.has_begun
        then = self.findings.take(run.asked, made, is_first, self.waiting(), time.time() - (time.monotonic() - run.began))
        self.events.know(made.inodes, then.gone, run.began)
        if is_first:
            self.begin(run, made, then.needs_whole)
        elif then.needs_whole:
            self.ask_beyond(run.asked)
        elif then.has_reported and not made.part.is_whole and self.outside.leave_numbers:
            run.lane.ask_whole(time.monotonic(), "a check that counts what is open", False)

    def ask_beyond(self, asked: Asked) -> None:
        """Has the whole host asked of what a check of a part left unsettled, by the time of whoever's check that was: else who makes
        something unsettled again and again has all of it asked all the time."""
        deep, now = self.lanes.deep, time.monotonic()
        deep.give_back(asked)
        deep.payers.update(asked.payers)
        deep.ask_whole(max(now, self.next_deep), "a check of the whole host")
        self.next_deep = now + AFTER_DEEP

    def waiting(self) -> Dict[lanes.Place, lanes.Touched]:
        """What happened to entries that wait to be asked of, or are asked of now; what a check of the whole host waits for was asked of."""
        there = [each.asked.touched for each in self.running.values() if each.lane.person != lanes.DEEP]
        return {place: each for touched in (*there, *(lane.touched for lane in self.lanes.all.values() if lane.person != lanes.DEEP))
                for place, each in touched.items()}

    def watch_all(self, run: Running, made: Result) -> None:
        """Watches what was found, where each folder is watched by itself; what wasn't yet is asked of once more."""
        if self.source.has_pids:
            return
        owned = [(path, self.owners.of(path)) for path in map(path_of, made.part.there)]
        fresh = [path for path, person in owned if self.source.watch(path, person)]
        if self.source.is_short:
            self.limit("watches", "not every cgroup is watched: inotify has no more watches (fs.inotify.max_user_watches)")
        for person in sorted({person for _, person in owned if not self.source.may_watch(person)}):
            self.limit(f"watches {person}", f"not every cgroup of uid {person} is watched: a person has an eighth of inotify's watches")
        if fresh and self.has_surveyed:
            run.lane.add(run.asked.part, time.monotonic())

    def has_read(self) -> None:
        """Has all of it asked where processes act as somebody else than a minute ago, or groups have others."""
        if self.reading is None:
            return
        self.poll.unregister(self.reading.fileno())
        made, self.reading = self.reading.made(), None
        if isinstance(made, Failed):
            self.limit("processes", f"processes weren't read: {made.why}")
        elif made != self.processes:
            if self.processes:
                self.ask_whole("a minute's reading of processes and groups")
            self.processes = made

    # numbers, and the end

    def count(self) -> None:
        if self.outside.leave_numbers and self.metrics:
            waiting = sum(lane.is_waiting for lane in self.lanes.all.values())
            numbers = Numbers(self.findings.counts, len(known.standing(self.findings.known)), self.events.last, self.last_check, self.began,
                              self.source.has_pids, self.lost, waiting)
            try:
                self.outside.leave_numbers(self.metrics, numbers)
            except (fault.Fault, OSError) as error:
                self.limit("metrics", why_of(error))

    def end(self) -> None:
        """Ends what runs, and writes what was asked for, of a last check."""
        self.outside.manager("STOPPING=1")
        left: List[Union["Child[Result]", "Child[str]"]] = [each.child for each in self.running.values()]
        for child in (*left, *([self.reading] if self.reading else [])):
            child.ask_to_end()
            child.made()
        self.running.clear()
        if self.outside.is_written_at_end and self.has_surveyed:
            lane = Lane(lanes.HOST, time.monotonic())
            lane.ask_whole(time.monotonic(), "the last check")
            self.start(lane, self.outside.write)
            (run,) = self.running.values()
            made = run.child.made()
            if isinstance(made, Failed):
                raise fault.Fault(made.why)
        self.source.close()
