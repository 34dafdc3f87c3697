"""Nights: runs view/monitoring/nightly at a time that a test gives, and has promtool say which alerts its numbers raise."""
import json
import os
import re
import subprocess
import tempfile
from pathlib import Path

from lib.cases import RoomCase
from lib.program import TOP, need, write

MONITORING = TOP / "view/monitoring"
NIGHTLY, RULES = MONITORING / "nightly", MONITORING / "shardscrub.rules.yml"
METRICS, WHY = TOP / "view/metrics", TOP / "view/why"
# The labels of each alert beside the disk and the severity, and what stands behind an alert's name for its severity.
LABELS = {"instance": "node1:9100", "job": "node"}
SEVERITIES = {"!": "critical", "?": "info"}


def done(*words, **more):
    """The status and both outputs of a run."""
    ended = subprocess.run([str(word) for word in words], capture_output=True, encoding="utf-8", **{"stdin": subprocess.DEVNULL} | more)
    return ended.returncode, ended.stdout, ended.stderr


def series(disk, nights):
    """Each number at each hour, with a night at the begin of each 24 hours, and the time of the file."""
    names = {f'shardscrub_{name}{{disk="{disk}"': [night.get(name) for night, _ in nights] for night, _ in nights for name in night}
    written = [24 * 3600 * number if is_renewed else None for number, (_, is_renewed) in enumerate(nights)]
    for number in range(1, len(written)):
        written[number] = written[number - 1] if written[number] is None else written[number]
    file = f'node_textfile_mtime_seconds{{file="/var/lib/prometheus/node-exporter/shardscrub-{disk}.prom"'
    for name, values in (names | {file: written}).items():
        labels = "".join(f', {label}="{value}"' for label, value in LABELS.items())
        texts = ["_x24" if value is None else f"{value}+0x23" for value in values]
        yield {"series": f"{name}{labels}}}", "values": " ".join(texts)}


def alert(disk, name):
    """A raised alert as promtool writes it. Behind the name is the mark of its severity."""
    labels = {"alertname": f"Shardscrub{name.rstrip('!?')}", "alertstate": "firing", "disk": disk, **LABELS,
              "severity": SEVERITIES.get(name[-1], "warning")}
    texts = ", ".join(f'{label}="{value}"' for label, value in labels.items())
    return {"labels": f"ALERTS{{{texts}}}", "value": 1}


class NightlyCase(RoomCase):
    """Nightly scans at a time that the tests give."""

    @classmethod
    def setUpClass(cls):
        super().setUpClass()
        need("flock")
        write(cls.room / "bin/date", "#!/bin/sh\n[ \"$*\" = +%s ] && echo $NOW\n", 0o755)

    def setUp(self):
        folder = tempfile.TemporaryDirectory(dir=self.room)
        self.addCleanup(folder.cleanup)
        # The folder of node_exporter, and one for what else a test makes.
        self.other = Path(folder.name)
        self.folder = self.other / "collected"
        self.folder.mkdir()
        self.environment = {**os.environ, "SHARDSCRUB": self.program, "PATH": f"{self.room}/bin:{os.environ['PATH']}", "NOW": "1000"}
        for name in ("LAST", "LOCK", "BYTES", "JOURNAL_STREAM"):
            self.environment.pop(name, None)

    def right_text(self, disk, image, *words, last=None):
        """The file of the disk after a summary of the image, with these words behind it, and the last generation. It is an answer."""
        given = [] if last is None else ["--last", last]
        status, text, _ = done(self.program, "summary", *given, image, *words)
        return subprocess.run([METRICS, disk, str(status), "0", str(len(given) // 2), str(os.path.getsize(image))], input=text,
                              env=self.environment, capture_output=True, encoding="utf-8", check=True).stdout

    def files(self):
        return {path.name: path.read_text(encoding="utf-8") for path in self.folder.iterdir() if path.is_file()}

    def nightly(self, *words, preexec_fn=None, **more):
        return done(NIGHTLY, *words, env=self.environment | more, umask=0o077, preexec_fn=preexec_fn)

    def samples(self, disk):
        """The numbers of the disk's file, by their names. There are none if it has no file."""
        text = self.files().get(f"shardscrub-{disk}.prom", "")
        return dict(re.findall(r"^shardscrub_(\w+)\{.*\} (\d+)$", text, re.M))

    def script(self, text):
        """A program that runs these lines."""
        write(self.other / "script", f"#!/bin/sh\n{text}\n", 0o755)
        return self.other / "script"

    def raises(self, disks, wanted):
        """Checks which alerts are raised in the first hour after each night. `disks` has the nights of each disk: the numbers, and whether
        its file was written. `wanted` has for each night the alerts that are wanted, NoLast aside, with ! if critical, and ? if info."""
        asked = []
        for hour, nights in enumerate(zip(*(wanted[disk] for disk in disks), strict=True)):
            names = {disk: names.split() for disk, names in zip(disks, nights)}
            for disk in disks:
                numbers = disks[disk][hour][0]
                if numbers.get("answered") == "1" and numbers["last_given"] == "0":
                    names[disk].append("NoLast?")
            alerts = [alert(disk, name) for disk in disks for name in names[disk]]
            asked.append({"expr": 'ALERTS{alertstate="firing"}', "eval_time": f"{24 * hour}h", "exp_samples": alerts})
        lines = [one for disk, nights in disks.items() for one in series(disk, nights)]
        tests = {"interval": "1h", "input_series": lines, "promql_expr_test": asked}
        cases = self.other / "cases.json"
        cases.write_text(json.dumps({"rule_files": [str(RULES)], "evaluation_interval": "1h", "tests": [tests]}), encoding="utf-8")
        status, out, error = done("promtool", "test", "rules", cases)
        self.true("alerts", status == 0, out + error)
