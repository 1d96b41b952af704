"""Tests of tools/manual, and that its pages are those of the program."""
import re
import shutil
import unittest

from cases import TOOLS, VWIRES, Case


@unittest.skipUnless(VWIRES, "no vwires")
class Manual(Case):
    def copied(self):
        """A copy of the tools."""
        shutil.copytree(TOOLS, self.folder / "tools")
        return self.folder / "tools"

    def test_the_pages_are_those_of_the_program(self):
        self.printed(TOOLS / "manual", "--check", "--vwires", VWIRES)

    def test_a_page_that_drifted_is_found_and_made_anew(self):
        tools = self.copied()
        for name in ["vwires.1", "vwires.bash"]:
            text = (tools / name).read_text()
            (tools / name).write_text(text.replace("grade", "mark"))
            done = self.run_words([tools / "manual", "--check", "--vwires", VWIRES])
            wanted = f"{(tools / name).resolve()} isn't what tools/manual makes of vwires --help\n"
            self.assertEqual((done.returncode, done.stderr), (1, wanted))
            self.assertEqual(self.run_words([tools / "manual", "--vwires", VWIRES]).returncode, 0)
            self.assertEqual((tools / name).read_text(), text)

    def test_a_help_of_another_form_is_refused(self):
        program = self.folder / "other"
        program.write_text("#!/bin/sh\necho usage: other\n")
        program.chmod(0o755)
        done = self.run_words([self.copied() / "manual", "--vwires", program])
        wanted = "the text of --help has other parts than tools/manual knows\n"
        self.assertEqual((done.returncode, done.stderr), (1, wanted))

    @unittest.skipUnless(shutil.which("groff"), "no groff")
    def test_the_man_page_has_no_fault(self):
        page = self.printed("groff", "-man", "-Tascii", "-P-c", "-ww", TOOLS / "vwires.1")
        # lines are spread to both margins
        self.assertIn("resume DESIGN BOARD STATE STIM [plan=FILE]", re.sub(" +", " ", re.sub(".\b", "", page)))


@unittest.skipUnless(shutil.which("bash"), "no bash")
class Completion(Case):
    def completed(self, *words):
        """What completes the last of these words."""
        script = 'source "$1"; shift; COMP_WORDS=("$@"); COMP_CWORD=$(($# - 1)); _vwires; echo "${COMPREPLY[@]}"'
        return sorted(self.printed("bash", "-c", script, "bash", TOOLS / "vwires.bash", "vwires", *words).split())

    def test_commands_settings_and_files(self):
        for name in ["toggle.blif", "toggle.plan"]:
            self.write(name, "")
        for words, wanted in [
            (["s"], ["save", "sim"]),
            (["--v"], ["--version"]),
            (["run", "tog"], ["toggle.blif", "toggle.plan"]),
            (["run", "d", "b", "s", "un"], ["unknown=", "until="]),
            (["run", "d", "b", "s", "unknown", "="], ["0", "1"]),
            (["run", "d", "b", "s", "unknown", "=", "1"], ["1"]),
            (["run", "d", "b", "s", "plan", "=", "toggle.p"], ["toggle.plan"]),
            (["run", "d", "b", "s", "workers", "="], []),
            (["emit", "d", "b", "p"], ["plan="]),
        ]:
            self.assertEqual(self.completed(*words), wanted, words)
