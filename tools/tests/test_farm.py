"""Tests of tools/farm, over each engine that this machine has."""
import os
import pathlib
import shutil
import signal
import socket
import subprocess
import sys
import tempfile
import time
import unittest

from cases import DATA, TOOLS, VWIRES, Case

FARM = TOOLS / "farm"
# vwires, but each call and its process are noted; a grading takes as long as the file `slow` says; one is killed where
# the file `kill` names its share, and takes a minute where `hang` does
NOTING = """#!{python}
import os, sys, time
here = {folder!r}
part = [word for word in sys.argv[1:] if word.startswith("part=")]
named = lambda file: part and os.path.exists(here + file) and part[0] in open(here + file).read()
with open(here + "/calls", "a") as calls, open(here + "/pids", "a") as pids:
    calls.write(" ".join(sys.argv[1:]) + "\\n")
    pids.write(str(os.getpid()) + "\\n")
if part and os.path.exists(here + "/slow"):
    time.sleep(float(open(here + "/slow").read()))
if named("/hang"):
    os.remove(here + "/hang")
    time.sleep(60)
if named("/kill"):
    if not os.path.exists(here + "/kill_always"):
        os.remove(here + "/kill")
    os.kill(os.getpid(), 9)
os.execv({vwires!r}, [{vwires!r}, *sys.argv[1:]])
"""


def runs(pid):
    """Whether a process is there, and not only its status."""
    try:
        return pathlib.Path(f"/proc/{pid}/stat").read_text().rpartition(")")[2].split()[0] != "Z"
    except OSError:
        return False


class Farm:
    """What holds over each engine, whose words are `engine`."""

    engine = ()

    def setUp(self):
        super().setUp()
        self.write("vw", NOTING.format(python=sys.executable, folder=str(self.folder), vwires=str(VWIRES)))
        (self.folder / "vw").chmod(0o755)

    def run_words(self, words, **settings):
        """The same, which fails where it takes five minutes."""
        return super().run_words(words, timeout=300, **settings)

    def words(self, *words):
        """The words of a call of the tool."""
        return [str(word) for word in [FARM, *words, *self.engine, "--out", "out", "--vwires", "./vw"]]

    def calls(self):
        """The calls of vwires so far."""
        return sorted((self.folder / "calls").read_text().splitlines())

    def grading(self, *stimuli):
        return self.words("grade", DATA / "updown.blif", *stimuli, "--shares", "7")

    def whole(self):
        return self.printed(VWIRES, "grade", DATA / "updown.blif", DATA / "updown.stim")

    def test_seven_shares_are_the_whole(self):
        done = self.run_words(self.grading(DATA / "updown.stim"))
        self.assertEqual(done.returncode, 0, done.stderr)
        self.assertEqual((self.folder / "out" / "grade.txt").read_text(), self.whole())
        calls = self.calls()
        self.assertEqual(len(calls), 7)
        self.assertEqual(self.run_words(self.grading(DATA / "updown.stim")).returncode, 0)
        self.assertEqual(self.calls(), calls)

    def test_a_killed_task_is_tried_again(self):
        self.write("kill", "part=3/7")
        done = self.run_words(self.grading(DATA / "updown.stim"))
        self.assertEqual(done.returncode, 0, done.stderr)
        self.assertEqual((self.folder / "out" / "grade.txt").read_text(), self.whole())
        calls = self.calls()
        self.assertEqual((len(calls), len(set(calls))), (8, 7))

    def test_what_is_always_killed_is_named(self):
        self.write("kill", "part=3/7")
        self.write("kill_always", "")
        done = self.run_words(self.grading(DATA / "updown.stim"))
        self.assertEqual(done.returncode, 1)
        self.assertIn("part=3/7", done.stderr.splitlines()[-1])
        self.assertFalse((self.folder / "out" / "grade.txt").exists())
        self.assertEqual(sum("part=3/7" in call for call in self.calls()), 4)

    def test_a_late_task_is_stopped_and_tried_again(self):
        self.write("hang", "part=3/7")
        begun = time.monotonic()
        done = self.run_words([*self.grading(DATA / "updown.stim"), "--seconds", "4"])
        self.assertEqual(done.returncode, 0, done.stderr)
        self.assertLess(time.monotonic() - begun, 50)
        self.assertEqual((self.folder / "out" / "grade.txt").read_text(), self.whole())
        self.assertEqual(sum("part=3/7" in call for call in self.calls()), 2)

    def kept(self):
        """The shares that are done."""
        return {int(file.stem[4:]) + 1 for file in (self.folder / "out").glob("task*.json")}

    def count(self):
        """How often each share was begun."""
        calls = self.calls()
        return [sum(call.endswith(f"part={share}/7") for call in calls) for share in range(1, 8)]

    def stopped(self, number):
        """Stops a call by a signal once a share is done; gives how it ended, what is done, and what was begun."""
        self.write("slow", "7")
        begun = subprocess.Popen(self.grading(DATA / "updown.stim"), cwd=self.folder, stderr=subprocess.DEVNULL)
        for _ in range(1200):
            if self.kept():
                break
            time.sleep(0.05)
        # by now each task has begun: one whose login GNU parallel is just opening isn't ended by it
        time.sleep(2)
        begun.send_signal(number)
        status = begun.wait(timeout=60)
        kept, count = self.kept(), self.count()
        self.assertTrue(0 < len(kept) < 7, kept)
        (self.folder / "slow").unlink()
        return status, kept, count

    def test_a_stop_ends_the_tasks_and_a_second_call_goes_on(self):
        status, kept, before = self.stopped(signal.SIGTERM)
        self.assertEqual(status, -signal.SIGTERM)
        # a login takes a second to see that nobody waits any more; a task that went on would take longer
        time.sleep(2.5)
        self.assertEqual([pid for pid in (self.folder / "pids").read_text().split() if runs(pid)], [])
        self.assertFalse((self.folder / "out" / "grade.txt").exists())
        self.assertEqual(self.run_words(self.grading(DATA / "updown.stim")).returncode, 0)
        self.assertEqual((self.folder / "out" / "grade.txt").read_text(), self.whole())
        # once, and once more for what was stopped
        wanted = [1 + (times - (share in kept)) for share, times in enumerate(before, 1)]
        self.assertEqual(self.count(), wanted)
        self.assertEqual(max(before), 1)

    def test_twenty_stimuli_on_a_board(self):
        lines = []
        for number in range(20):
            name = self.write(f"s{number}.stim", "11\n" * (number + 1))
            lines.append(f"{DATA / 'updown.blif'} {DATA / 'duo.board'} {self.folder / name}\n")
        self.write("list", "".join(lines))
        done = self.run_words(self.words("run", "list"))
        table = (self.folder / "out" / "table.txt").read_text() if done.returncode < 2 else done.stderr
        self.assertEqual(done.returncode, 0, table + done.stderr)
        self.assertEqual([line.split()[0] for line in table.splitlines()], ["same"] * 20)
        self.assertEqual(len(self.calls()), 40)


@unittest.skipUnless(VWIRES, "no vwires")
class Local(Farm, Case):
    def test_a_folder_of_another_job_is_refused(self):
        self.assertEqual(self.run_words(self.grading(DATA / "updown.stim")).returncode, 0)
        other = self.write("other.stim", "11\n")
        done = self.run_words(self.grading(other))
        self.assertEqual((done.returncode, "of another job" in done.stderr), (1, True), done.stderr)

    def test_two_stimuli_detect_together(self):
        other = self.write("other.stim", "11\n")
        self.assertEqual(self.run_words(self.grading(DATA / "updown.stim", other)).returncode, 0)
        grades = [set(self.printed(VWIRES, "grade", DATA / "updown.blif", name).splitlines()[1:-1]) for name in (DATA / "updown.stim", other)]
        found = (self.folder / "out" / "grade.txt").read_text().splitlines()
        self.assertEqual(set(found[1:-1]), grades[0] & grades[1])

    def test_a_killed_call_leaves_tasks_that_are_waited_for(self):
        status, _, _ = self.stopped(signal.SIGKILL)
        self.assertEqual(status, -signal.SIGKILL)
        self.assertEqual(self.run_words(self.grading(DATA / "updown.stim")).returncode, 0)
        self.assertEqual((self.folder / "out" / "grade.txt").read_text(), self.whole())
        self.assertEqual(self.count(), [1] * 7)

    def test_an_interrupt_ends_as_one(self):
        self.assertEqual(self.stopped(signal.SIGINT)[0], -signal.SIGINT)

    def listed(self, *words, expected=None):
        """The status of a run of one line, and the line of the table without seconds and names."""
        row = [DATA / "updown.blif", DATA / "duo.board", DATA / "updown.stim"]
        row += [self.folder / self.write("wanted", expected)] if expected is not None else []
        self.write("list", " ".join(map(str, row)) + "\n")
        shutil.rmtree(self.folder / "out", ignore_errors=True)
        done = self.run_words(self.words("run", "list", *words))
        line = (self.folder / "out" / "table.txt").read_text().split()
        return done.returncode, " ".join(word for word in line if "/" not in word and "." not in word)

    def test_the_first_clock_and_column_that_differ(self):
        trace = "trace 1 4 3\n0 0001 000\n1 1000 100\n2 0100 010\n3 1000 100\n4 0001 000\n5 1110 111\nend 6 111\n"
        self.assertEqual(self.listed(expected=trace), (0, "same sim 0 run 0"))
        for old, new, said in (
            ("\n2 0100 010", "\n2 0111 010", "clock 2 output 3"),
            ("\n3 1000 100", "\n3 1000 001", "clock 3 latch 1"),
            ("end 6 111", "end 6 110", "clock 6 latch 3"),
            ("trace 1 4 3", "trace 1 4 4", "line 1"),
            ("\n4 0001 000", "", "line 6"),
            ("\nend 6 111\n", "\n", "line 8"),
            ("end 6 111\n", "end 6 111", "line 9"),
        ):
            self.assertEqual(self.listed(expected=trace.replace(old, new)), (1, f"{said} sim 0 run 0"))

    def test_by_sim_and_by_run(self):
        for kind in ("sim", "run"):
            self.assertEqual(self.listed("--by", kind), (0, f"done {kind} 0"))
            self.assertEqual(self.listed("--by", kind, expected="trace\n"), (1, f"line 1 {kind} 0"))
            self.assertEqual({call.split()[0] for call in self.calls()}, {kind})
            (self.folder / "calls").unlink()

    def test_a_line_that_is_refused(self):
        self.write("short.stim", "1\n")
        self.write("list", f"{DATA / 'updown.blif'} {DATA / 'duo.board'} {self.folder / 'short.stim'}\n")
        self.assertEqual(self.run_words(self.words("run", "list")).returncode, 1)
        self.assertTrue((self.folder / "out" / "table.txt").read_text().startswith("refused sim 5 "))

    def test_wrong_words(self):
        self.assertEqual(self.run_words([FARM]).returncode, 2)
        self.assertEqual(self.run_words([*self.grading("s"), "--shares", "0"]).returncode, 2)
        self.assertEqual(self.run_words(self.words("grade", "no", "such")).returncode, 2)
        self.assertEqual(self.run_words([*self.grading("s"), "--send"]).returncode, 2)
        self.write("hosts", "4/:\n")
        engine = ("--engine", "parallel", "--hosts", "hosts", "--send")
        self.assertEqual(self.run_words([*self.grading("s"), *engine]).returncode, 2)


@unittest.skipUnless(VWIRES and shutil.which("parallel"), "no vwires, or no GNU parallel")
class Parallel(Farm, Case):
    engine = ("--engine", "parallel", "--hosts", "hosts")

    def setUp(self):
        super().setUp()
        self.write("hosts", "2/:\n")


SSHD = shutil.which("parallel") and os.path.exists("/usr/sbin/sshd") and os.geteuid() == 0


@unittest.skipUnless(VWIRES and SSHD, "no vwires, GNU parallel or sshd, or not root")
class Logins(Parallel):
    """Two logins: this machine itself, and it by ssh over the loopback."""

    here = "1/:\n"

    def setUp(self):
        super().setUp()
        os.makedirs("/run/sshd", mode=0o755, exist_ok=True)
        self.folder.chmod(0o755)
        for name in ("host", "user"):
            self.printed("ssh-keygen", "-q", "-t", "ed25519", "-N", "", "-f", name)
        shutil.copy(self.folder / "user.pub", self.folder / "authorized")
        at = self.folder
        self.write("sshd_config", f"Port 16822\nListenAddress 127.0.0.1\nHostKey {at}/host\nPidFile {at}/sshd.pid\n"
                   f"AuthorizedKeysFile {at}/authorized\nStrictModes no\nUsePAM no\nPermitRootLogin yes\nMaxStartups 100\n")
        daemon = subprocess.Popen(["/usr/sbin/sshd", "-D", "-f", at / "sshd_config"], stderr=subprocess.DEVNULL)
        self.addCleanup(lambda: (daemon.terminate(), daemon.wait()))
        ssh = f"ssh -p 16822 -i {at}/user -o StrictHostKeyChecking=no -o UserKnownHostsFile=/dev/null -o LogLevel=ERROR"
        self.write("hosts", f"{self.here}2/{ssh} root@127.0.0.1\n")
        for _ in range(100):
            done = self.run_words([*ssh.split(), "root@127.0.0.1", "true"])
            if done.returncode == 0:
                return
            time.sleep(0.1)
        self.skipTest(f"no login by ssh: {done.stderr}")

    def test_both_logins_are_given_tasks(self):
        self.assertEqual(self.run_words(self.grading(DATA / "updown.stim")).returncode, 0)
        hosts = {line.split("\t")[1] for line in (self.folder / "out" / "joblog").read_text().splitlines()[1:]}
        self.assertEqual(len(hosts), 2, hosts)


@unittest.skipUnless(VWIRES and SSHD and shutil.which("rsync"), "no vwires, GNU parallel, sshd or rsync, or not root")
class Sent(Logins):
    """A login to which all files are sent."""

    engine = (*Logins.engine, "--send")
    here = ""
    test_both_logins_are_given_tasks = None

    def tearDown(self):
        self.assertEqual(list(pathlib.Path.home().glob("farm-*")), [])
        super().tearDown()

    def test_the_files_of_a_task_are_the_sent_ones(self):
        self.assertEqual(self.run_words(self.grading(DATA / "updown.stim")).returncode, 0)
        sent = [f"grade .{DATA / 'updown.blif'} .{DATA / 'updown.stim'} workers=1 part={share}/7" for share in range(1, 8)]
        self.assertEqual(self.calls(), sent)


# a cluster of this machine alone, whose daemons talk over the loopback
SLURM_CONF = """ClusterName=loop
SlurmctldHost={host}(127.0.0.1)
SlurmctldPort=16817
SlurmdPort=16818
SlurmUser=root
AuthInfo=socket={folder}/munge.socket
StateSaveLocation={folder}/state
SlurmdSpoolDir={folder}/spool
SlurmctldPidFile={folder}/slurmctld.pid
SlurmdPidFile={folder}/slurmd.pid
ProctrackType=proctrack/linuxproc
TaskPlugin=task/none
SelectType=select/cons_tres
SelectTypeParameters=CR_Core
ReturnToService=2
MailProg=/bin/true
NodeName={host} NodeAddr=127.0.0.1 CPUs={cores} State=UNKNOWN
PartitionName=all Nodes={host} Default=YES State=UP
"""
SLURM = all(map(shutil.which, ("munged", "slurmctld", "slurmd", "sbatch"))) and os.geteuid() == 0


@unittest.skipUnless(VWIRES and SLURM, "no vwires, no Slurm and munge, or not root")
class Slurm(Farm, Case):
    engine = ("--engine", "slurm")

    @classmethod
    def setUpClass(cls):
        folder = tempfile.TemporaryDirectory()
        cls.addClassCleanup(folder.cleanup)
        at, host = pathlib.Path(folder.name), socket.gethostname().partition(".")[0]
        at.chmod(0o755)
        (at / "state").mkdir()
        (at / "key").write_bytes(os.urandom(1024))
        (at / "key").chmod(0o400)
        (at / "slurm.conf").write_text(SLURM_CONF.format(host=host, folder=at, cores=os.cpu_count()))
        os.environ["SLURM_CONF"] = str(at / "slurm.conf")
        files = [f"--{name}-file={at}/{file}" for name, file in (("key", "key"), ("pid", "pid"), ("log", "log"), ("seed", "seed"))]
        cls.start("munged", "--foreground", "--force", f"--socket={at}/munge.socket", *files)
        cls.until(lambda: (at / "munge.socket").exists())
        cls.start("slurmctld", "-D", "-c")
        cls.start("slurmd", "-D", "-N", host)
        cls.until(lambda: " idle " in subprocess.run(["sinfo", "-h"], capture_output=True, text=True, check=False).stdout)
        # a cluster that is up may run no job all the same
        first = ["timeout", "60", "sbatch", "--wait", "--output=/dev/null", "--wrap", "true"]
        if subprocess.run(first, capture_output=True, check=False).returncode != 0:
            raise unittest.SkipTest("Slurm runs no job")

    @classmethod
    def start(cls, *words):
        """Starts a daemon, which ends with the tests."""
        daemon = subprocess.Popen(words, stdout=subprocess.DEVNULL, stderr=subprocess.DEVNULL)
        cls.addClassCleanup(lambda: (daemon.terminate(), daemon.wait()))

    @staticmethod
    def until(holds):
        """Waits up to a minute."""
        for _ in range(600):
            if holds():
                return
            time.sleep(0.1)
        raise unittest.SkipTest("Slurm doesn't come up")


del Farm

if __name__ == "__main__":
    unittest.main()
