#!/usr/bin/env python3
"""Runs the trials of docs/live.md on examples/cluster again, and compares their numbers with the page's table.

    bench/live.py [--program PROGRAM] [--table]

A new user once tried the cluster with alarms that were lost, spurious or late, with webhooks, and with three collectors. Each trial is run as
that user did ("no" in the table's second column), and as the page says now ("yes"). The user's own draws weren't kept. They are drawn anew here
by Python's `random`, whose numbers are the same on each machine:

  damaged    372 bursts: each of the 79 problems with six alarms or more three times, a quarter of its alarms lost (rounded down), and each of
             the 135 problems with one alarm lost and one spurious. It is the first draw that `correlate` answers as it did then: the problem
             alone 361 times, among others 7 times, and wrong and sure 4 times.
  two lost   not of the user's trial: all problems, with any two of their alarms lost. This is more than the least radius allows for. "Six more
             symptoms" is the cluster with a symptom more for six problems.
  late       the 79 problems with six alarms or more. An alarm is five minutes late with a chance of 0.4. It is the first draw with 75 problems
             that have late alarms, as then. "First" are the windows of a problem's first alarms, and "later" the others.
  webhooks   an hour with 9 problems that share no alarm, 400 seconds apart; each lasts for 5 to 15 minutes. Alertmanager groups by alertname,
             waits 5 seconds for a group, and 10 before it posts the group again. It is the first draw with 93 webhooks and 158 alerts, as then.
             As the user did: each alert that is firing is raised when it is posted, and there are no ticks. As the page says:
             `tools/webhook.jq` and ticks, as in `tools/follow`, but without a socket; and `tools/poll` by a clock that doesn't wait.
             "Default waits" are those of Alertmanager, 30 seconds and 5 minutes.
  names      a day with 30 problems, whose alarms come from a cloud, a probe and Prometheus, under three names or one.

An answer is right if it names the problem alone; of several problems in one window, the one that began last. "Several" are answers that name it
among others. "Right" and "Wrong" without "sure" are unsure answers. "Ignored" are the alarms of the windows that the model knows and that are no column of the codebook. "Wait" is the longest time
from a window's first alarm to its answer, in seconds.

The program is the one that `.ci/run` or `rt run` left in crates/cb_cli/out. `jq` must be on the PATH. `--table` prints the table, and compares
nothing. The status is 1 if a sure answer is wrong in a line with "yes", or if the page's table has other lines.
"""
import argparse
import collections
import difflib
import itertools
import json
import os
import pathlib
import random
import subprocess
import sys
import tempfile
import time

ROOT = pathlib.Path(__file__).resolve().parent.parent
PAGE = ROOT / "docs" / "live.md"
FILES = [str(ROOT / "examples" / "cluster" / f"cluster.{kind}") for kind in ("model", "topology")]
HEAD = "| Trial | Now | How | Answers | Right, sure | Right | Several | Wrong | Wrong, sure | Ignored | Wait |"
KINDS = ["right sure", "right unsure", "one of several", "wrong unsure", "wrong sure"]
START = 1_700_000_000
CLOUD = {"Unhealthy", "ConnectTimeout", "FlowRejected", "NoTraffic", "HealthUnknown"}
CLOSE = ["KubeletDead", "NetBroken", "Blocked", "BadCertificate", "BadRule", "BadSelector"]
FEW, ALL, CAP = "few", "all", "cap9999"
DRAWS = {"damaged": 31, "late": 29, "webhooks": 1889, "names": 1}
PROBE = {"NoPing", "ProbeFailed", "ProbeTimeout", "CertificateExpired", "TlsErrors"}

Answer = collections.namedtuple("Answer", "source opened closed raised unknown sure groups")


def run(*words, given=None):
    """What a command prints."""
    done = subprocess.run([str(word) for word in words], input=given, stdout=subprocess.PIPE, text=True, check=False)
    if done.returncode:
        sys.exit(f"status {done.returncode} of {' '.join(map(str, words))}")
    return done.stdout


class Cluster:
    """The network, and the codebooks by which it is followed: with few columns, with all (of a certificate, or by a cap)."""

    def __init__(self, certificate, files, distance):
        self.files, self.distance, self.certificate = files, distance, certificate
        self.every, self.codes = [], {}
        for word, *words in map(str.split, run("jeknaule", "matrix", *files).splitlines()):
            if word == "column":
                self.every += words
            elif word == "group":
                self.codes[words[1]] = {column for column, digit in zip(self.every, words[0]) if digit == "1"}
        self.problems = [group for group in self.codes if group != "quiet"]
        self.large = [problem for problem in self.problems if len(self.codes[problem]) >= 6]
        certificate.write_text(run("all-columns", *files, distance))
        self.few = columns_of(run("jeknaule", "codebook", *files, distance))
        self.all = columns_of(self.certificate.read_text())
        self.caused = set().union(*self.codes.values())

    def follow(self, records, window, columns):
        """The answers to a log by a codebook with these columns, and for each of them the alarms of its window and how many of these no column is for."""
        log = "".join(json.dumps(record, separators=(",", ":")) + "\n" for record in records)
        words = {
            FEW: ["correlate", *self.files, "-", self.distance],
            ALL: ["decode", *self.files, self.certificate, "-"],
            CAP: ["correlate", *self.files, "-", "cap9999"],
        }[columns]
        answers = answers_of(run("jeknaule", *words, window, given=log))
        logs = timed_by_source(records)
        raised = [alarms_of(logs[answer.source], answer.opened, window) for answer in answers]
        if any(answer.unknown or answer.raised != len(up) for answer, up in zip(answers, raised)):
            sys.exit("bench/live.py: the alarms of a window are others than those of its answer")
        counted = {FEW: self.few, ALL: self.all, CAP: self.caused}[columns]
        return answers, raised, [len(up - counted) for up in raised]


def columns_of(certificate):
    """The columns of a certificate's codebook."""
    lines = [line.split() for line in certificate.splitlines()]
    nodes = [words[1] for words in lines if words[0] == "node"]
    return {nodes[int(words[1]) - 1] for words in lines if words[0] == "column"}


def answers_of(text):
    """The diagnoses that were printed."""
    found = []
    for word, *words in map(str.split, text.splitlines()):
        if word == "diagnosis":
            numbers = [int(words[place]) for place in (1, 2, 4, 6)]
            found.append(Answer(words[0], *numbers, words[11] == "sure", []))
        elif word == "group":
            found[-1].groups.append(words[0])
    return found


def timed_by_source(records):
    """For each source its records, with log time."""
    now, found = 0, collections.defaultdict(list)
    for record in records:
        now = max(now, record["at"])
        found[record.get("from")].append((now, record))
    return found


def alarms_of(timed, opened, window):
    """The alarms of a window."""
    up = set()
    for now, record in timed:
        if opened <= now < opened + window:
            up.discard(record.get("clear"))
            up |= {record["raise"]} if "raise" in record else set()
    return up


def kind_of(answer, problem):
    """Of what kind an answer is, where this problem is at work."""
    sure = "sure" if answer.sure else "unsure"
    if answer.groups == [problem]:
        return f"right {sure}"
    return "one of several" if problem in answer.groups else f"wrong {sure}"


class Line:
    """A line of the table. `problem_of` says which problem is at work, by an answer and the alarms of its window."""

    def __init__(self, trial, said, how, followed, problem_of, timed=True):
        self.name, self.said = [trial, "yes" if said else "no", how], said
        self.followed, self.timed = list(zip(*followed)), timed
        self.counts = collections.Counter(kind_of(answer, problem_of(answer, up)) for answer, up, _ in self.followed)

    def text(self):
        lost = sum(left for _, _, left in self.followed)
        wait = max(answer.closed - answer.opened for answer, _, _ in self.followed) if self.timed else "-"
        numbers = [len(self.followed), *(self.counts[kind] for kind in KINDS), lost, wait]
        return f"| {' | '.join(map(str, self.name + numbers))} |"


def draw(chance, items, count):
    """Some of the items, by chance."""
    left = list(items)
    return [left.pop(int(chance.random() * len(left))) for _ in range(count)]


def raised(at, source, node):
    return {"at": START + at, "from": source, "raise": node}


def with_ticks(records, seconds):
    """The records in the order of their times, and a tick every five seconds."""
    ticks = [{"at": START + at, "tick": True} for at in range(5, seconds + 1, 5)]
    return sorted(records + ticks, key=lambda record: record["at"])


def damaged_bursts(cluster, seed):
    """372 problems, each with the alarms that came."""
    chance, bursts = random.Random(seed), []
    for problem in cluster.large:
        alarms = sorted(cluster.codes[problem])
        bursts += [(problem, cluster.codes[problem].difference(draw(chance, alarms, len(alarms) // 4))) for _ in range(3)]
    for problem in cluster.problems:
        alarms = cluster.codes[problem]
        lost = draw(chance, sorted(alarms), 1)
        bursts.append((problem, alarms.difference(lost).union(draw(chance, sorted(cluster.all - alarms), 1))))
    return bursts


def two_lost(cluster):
    """All problems, with any two of their alarms lost."""
    return [(problem, cluster.codes[problem].difference(pair)) for problem in cluster.problems
            for pair in itertools.combinations(sorted(cluster.codes[problem]), 2)]


def asked_too(cluster, followed):
    """The answers of `correlate`, where `burst` says the same and is as sure, and elsewhere those of `burst`, unsure."""
    answers, alarms, _ = followed
    both = []
    for answer, up in zip(answers, alarms):
        first, *groups = map(str.split, run("jeknaule", "burst", *cluster.files, "-", given="\n".join(up)).splitlines())
        names = [words[1] for words in groups]
        both.append(answer._replace(sure=answer.sure and first[9] == "sure" and names == answer.groups, groups=names))
    return both, alarms, [0] * len(both)


def mended(room):
    """The cluster, with a symptom more for the problems that differ from another one, or from quiet, at three alarms."""
    text = pathlib.Path(FILES[0]).read_text()
    for problem in CLOSE:
        line = f"  problem {problem};"
        if text.count(line) != 1:
            sys.exit(f"bench/live.py: the model hasn't {problem} once")
        text = text.replace(line, f"{line} symptom {problem}Too; rule {problem}-too: {problem} => {problem}Too;")
    (room / "mended.model").write_text(text)
    return Cluster(room / "mended.certificate", [str(room / "mended.model"), FILES[1]], 4)


def damaged(cluster, room):
    def followed(cases, columns, network=cluster):
        log = [raised(0, f"case-{number}", node) for number, (_, alarms) in enumerate(cases) for node in sorted(alarms)]
        return network.follow(log, 60, columns)

    def by(cases):
        return lambda answer, _: cases[int(answer.source[5:])][0]

    better = mended(room)
    bursts, lost, less = damaged_bursts(cluster, DRAWS["damaged"]), two_lost(cluster), two_lost(better)
    by_few = followed(bursts, FEW)
    return [
        Line("damaged", False, "distance 3", by_few, by(bursts), False),
        Line("damaged", True, "`cap9999`", followed(bursts, CAP), by(bursts), False),
        Line("damaged", True, "all columns", followed(bursts, ALL), by(bursts), False),
        Line("damaged", False, "distance 3 and `burst`", asked_too(cluster, by_few), by(bursts), False),
        Line("two lost", False, "distance 3", followed(lost, FEW), by(lost), False),
        Line("two lost", False, "`cap9999`", followed(lost, CAP), by(lost), False),
        Line("two lost", False, "all columns", followed(lost, ALL), by(lost), False),
        Line("two lost", True, "`cap9999`, six more symptoms", followed(less, CAP, better), by(less), False),
        Line("two lost", True, "all columns at 4, six more symptoms", followed(less, ALL, better), by(less), False),
    ]


def late_alarms(cluster, seed):
    """A log in which each large problem is a source, and the problems with late alarms."""
    chance, records, late = random.Random(seed), [], set()
    for problem in cluster.large:
        for node in sorted(cluster.codes[problem]):
            is_late = chance.random() < 0.4
            late |= {problem} if is_late else set()
            records.append(raised(300 * is_late + int(20 * chance.random()), problem.replace("@", ":"), node))
    return with_ticks(records, 1200), late


def parted(followed):
    """The first windows of each source, and the others."""
    seen, parts = set(), ([], [])
    for line in zip(*followed):
        parts[line[0].source in seen].append(line)
        seen.add(line[0].source)
    return [list(zip(*part)) for part in parts]


def late(cluster):
    log, some_late = late_alarms(cluster, DRAWS["late"])
    if len(some_late) != 75:
        sys.exit("bench/live.py: the draw hasn't 75 problems with late alarms")
    given = "".join(json.dumps(record) + "\n" for record in log)
    restated = run("jq", "-cn", "--argjson", "window", 60, "-f", ROOT / "tools" / "restate.jq", given=given)

    def problem_of(answer, _):
        return answer.source.replace(":", "@")

    first, later = parted(cluster.follow(log, 60, FEW))
    mended_first, mended_later = parted(cluster.follow([json.loads(line) for line in restated.splitlines()], 60, CAP))
    return [
        Line("late, first", False, "distance 3, window 60", first, problem_of),
        Line("late, later", False, "distance 3, window 60", later, problem_of),
        Line("late, first", False, "`cap9999`, window 60, `restate.jq`", mended_first, problem_of),
        Line("late, later", True, "`cap9999`, window 60, `restate.jq`", mended_later, problem_of),
        Line("late", True, "`cap9999`, window 600", cluster.follow(log, 600, CAP), problem_of),
        Line("late", True, "all columns, window 600", cluster.follow(log, 600, ALL), problem_of),
    ]


def problems_of(cluster, chance, count, apart):
    """Problems that share no alarm, when each begins, and to which of them an alarm belongs."""
    begin, owner = {}, {}
    while len(begin) < count:
        problem = draw(chance, cluster.problems, 1)[0]
        if apart and any(node in owner for node in cluster.codes[problem]) or problem in begin:
            continue
        begin[problem] = len(begin)
        owner.update({node: problem for node in cluster.codes[problem]})
    return begin, owner


def group_posts(alerts, wait, interval):
    """When Alertmanager posts a group, and with which alerts: all that fire, and those that were resolved since its last post."""
    now, told, gone, posts = min(start for _, start, _ in alerts) + wait, set(), set(), []
    while len(gone) < len(alerts):
        known = {alert for alert in alerts if alert[1] <= now and alert not in gone}
        firing = {alert for alert in known if now < alert[2]}
        if firing != told or known - told:
            posts.append((now, sorted(known)))
        gone |= known - firing
        told = firing
        now = now + interval if firing or len(gone) == len(alerts) else min(alert[1] for alert in alerts if alert not in gone) + wait
    return posts


def hour(cluster, seed, wait, interval):
    """The posts of an hour, when each problem begins, and to which of them an alarm belongs."""
    chance, groups, posts = random.Random(seed), collections.defaultdict(list), []
    begin, owner = problems_of(cluster, chance, 9, True)
    for problem, number in begin.items():
        start = 400 * number + int(100 * chance.random())
        end = start + 300 + int(600 * chance.random())
        for node in sorted(cluster.codes[problem]):
            groups[node.split("@")[0]].append((node, start + int(20 * chance.random()), end + int(20 * chance.random())))
    for alerts in groups.values():
        posts += group_posts(alerts, wait, interval)
    return sorted(posts), begin, owner


def body_of(now, alerts):
    """What Alertmanager posts, as `tools/receive.py` prints it."""
    def clock(at):
        return time.strftime("%Y-%m-%dT%H:%M:%S", time.gmtime(START + at)) + ".250Z"

    made = []
    for node, start, end in alerts:
        event, instance = node.split("@")
        labels = {"alertname": event, "instance": instance + ":9100" * instance.startswith("node-")}
        made.append({"status": "firing", "labels": labels, "startsAt": clock(start), "endsAt": "0001-01-01T00:00:00Z"})
        if end <= now:
            made[-1] |= {"status": "resolved", "endsAt": clock(end)}
    return json.dumps({"status": "firing" if any(alert["status"] == "firing" for alert in made) else "resolved", "alerts": made})


def changes(cluster, posts, room):
    """The records of `tools/webhook.jq`, each where its post came, with ticks between the posts."""
    known = room / "known"
    known.write_text("".join(f"{node}\n" for node in cluster.every))
    bodies = "".join(body_of(now, alerts) + "\n" for now, alerts in posts)
    made = run("jq", "-cn", "--rawfile", "known", known, "-f", ROOT / "tools" / "webhook.jq", given=bodies)
    came = {}
    for now, alerts in posts:
        for node, _, end in alerts:
            came.setdefault((node, "raise" if now < end else "clear"), now)
    timed = []
    for record in map(json.loads, made.splitlines()):
        word = "raise" if "raise" in record else "clear"
        timed.append((came[record[word], word], record))
    timed += [(at, {"at": START + at, "tick": True}) for at in range(0, 6000, 5)]
    return [record for _, record in sorted(timed, key=lambda pair: pair[0])]


def polled(posts, room, seconds):
    """The records of `tools/poll`, whose `date` and `sleep` go by a clock that doesn't wait."""
    alerts, clock = {alert for _, known in posts for alert in known}, room / "clock"
    clock.mkdir()
    scripts = {
        "date": f'read -r now < {clock}/now && [ -e "{clock}/$now" ] && echo "$now"',
        "sleep": f'read -r now < {clock}/now && echo "$((now + $1))" > {clock}/now',
        "up": f"read -r now < {clock}/now && cat {clock}/$now",
    }
    for name, script in scripts.items():
        (clock / name).write_text(f"#!/bin/sh\n{script}\n")
        (clock / name).chmod(0o755)
    for at in range(0, 4500, seconds):
        (clock / str(START + at)).write_text("".join(f"{node}\n" for node, start, end in alerts if start <= at < end))
    (clock / "now").write_text(f"{START}\n")
    return [json.loads(line) for line in run("env", f"PATH={clock}:{os.environ['PATH']}", "poll", seconds, "up").splitlines()]


def webhooks(cluster, room):
    posts, begin, owner = hour(cluster, DRAWS["webhooks"], 5, 10)
    few = changes(cluster, posts, room)
    slow, _, _ = hour(cluster, DRAWS["webhooks"], 30, 300)
    if (len(posts), sum(len(alerts) for _, alerts in posts)) != (93, 158):
        sys.exit("bench/live.py: the draw hasn't 93 webhooks and 158 alerts")
    posted = [raised(now, "all", node) for now, alerts in posts for node, _, end in alerts if now < end]

    def problem_of(_, up):
        return max((owner[node] for node in up), key=begin.get, default="quiet")

    return [
        Line("webhooks", False, "as posted, distance 3", cluster.follow(posted, 60, FEW), problem_of),
        Line("webhooks", False, "`webhook.jq`, distance 3", cluster.follow(few, 60, FEW), problem_of),
        Line("webhooks", True, "`webhook.jq`, `cap9999`", cluster.follow(few, 60, CAP), problem_of),
        Line("webhooks", True, "`webhook.jq`, all columns", cluster.follow(few, 60, ALL), problem_of),
        Line("webhooks", True, "`poll 15`, `cap9999`", cluster.follow(polled(posts, room, 15), 60, CAP), problem_of),
        Line("webhooks, default waits", False, "`webhook.jq`, `cap9999`", cluster.follow(changes(cluster, slow, room), 60, CAP), problem_of),
    ]


def names(cluster):
    chance = random.Random(DRAWS["names"])
    begin, _ = problems_of(cluster, chance, 30, False)
    several, one, order = [], [], list(begin)
    for problem, number in begin.items():
        for node in sorted(cluster.codes[problem]):
            event, at = node.split("@")[0], 2880 * number + int(30 * chance.random())
            several.append(raised(at, "cloud" if event in CLOUD else "probe" if event in PROBE else "prometheus", node))
            one.append(raised(at, "all", node))

    def problem_of(answer, _):
        return order[(answer.opened - START) // 2880]

    return [
        Line("names", False, "three names, distance 3", cluster.follow(with_ticks(several, 86_400), 60, FEW), problem_of),
        Line("names", True, "one name, `cap9999`", cluster.follow(with_ticks(one, 86_400), 60, CAP), problem_of),
        Line("names", True, "one name, all columns", cluster.follow(with_ticks(one, 86_400), 60, ALL), problem_of),
    ]


def lines_of(program):
    """The lines of the table, by a program."""
    with tempfile.TemporaryDirectory() as name:
        room = pathlib.Path(name)
        (room / "jeknaule").symlink_to(program)
        os.environ["PATH"] = f"{room}:{ROOT / 'tools'}:{os.environ['PATH']}"
        cluster = Cluster(room / "all.certificate", FILES, 3)
        return damaged(cluster, room) + late(cluster) + webhooks(cluster, room) + names(cluster)


def main():
    parser = argparse.ArgumentParser(description=__doc__, formatter_class=argparse.RawDescriptionHelpFormatter)
    parser.add_argument("--program", type=pathlib.Path, default=ROOT / "crates" / "cb_cli" / "out" / "cb_cli")
    parser.add_argument("--table", action="store_true")
    said = parser.parse_args()
    if not said.program.exists():
        sys.exit(f"{said.program} isn't there: run `.ci/run`, or `rt run` in crates/cb_cli, first")
    lines = lines_of(said.program.resolve())
    table = [HEAD, "|---|---|---|" + "--:|" * 8, *(line.text() for line in lines)]
    wrong = [line.text() for line in lines if line.said and line.counts["wrong sure"]]
    if said.table:
        print(*table, sep="\n")
        return
    page = PAGE.read_text().splitlines()
    start = page.index(HEAD) if HEAD in page else len(page)
    stands = page[start : next((at for at in range(start, len(page)) if not page[at].startswith("|")), len(page))]
    differs = difflib.unified_diff(stands, table, "stands there", "is found", lineterm="")
    for line in [*(f"sure and wrong: {line}" for line in wrong), *differs]:
        print(line)
    print(f"docs/live.md: {len(lines)} lines, {'the same' if stands == table else 'not the same'}, {len(wrong)} sure and wrong")
    sys.exit(1 if wrong or stands != table else 0)


if __name__ == "__main__":
    main()
