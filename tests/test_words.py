"""Version, help, completions and the manual page."""
import shutil
import subprocess
import unittest

from program import ProgramTest, run

COMMANDS = ["survey", "page", "rows", "mend", "completions", "man"]
COMMON = ["--map", "--start", "--pages", "--allow", "--min-count", "--limit", "--threads", "--color", "--quiet"]


class Words(ProgramTest):
    def test_version_names_the_librarys_too(self):
        self.assertEqual(run("--version").text, "lumeviqo 0.1.0 (library 4)\n")

    def test_help_names_every_command_and_has_examples(self):
        ran = run("--help")
        self.assertEqual((ran.status, ran.err), (0, ""))
        for word in COMMANDS + ["Examples:", "Status:"]:
            self.assertIn(word, ran.text)

    def test_help_of_each_command_names_the_common_options(self):
        for command in ("survey", "page", "rows", "mend"):
            with self.subTest(command):
                text = run(command, "--help").text
                self.assertEqual([word for word in COMMON if word not in text], [])

    def test_completions_of_bash_are_a_script(self):
        ran = run("completions", "bash")
        self.assertEqual(ran.status, 0)
        subprocess.run(["bash", "-n"], input=ran.out, check=True)
        path = self.file("completions.bash", ran.out)
        script = f". {path}; COMP_WORDS=(lumeviqo sur); COMP_CWORD=1; _lumeviqo lumeviqo sur lumeviqo; echo ${{COMPREPLY[@]}}"
        self.assertEqual(subprocess.run(["bash", "-c", script], capture_output=True, text=True).stdout, "survey\n")

    def test_completions_of_other_shells(self):
        for shell in ("zsh", "fish"):
            with self.subTest(shell):
                ran = run("completions", shell)
                self.assertEqual(ran.status, 0)
                self.assertIn("--copy-map" if shell == "zsh" else "copy-map", ran.text)

    def test_the_manual_page_has_every_command_and_option(self):
        ran = run("man")
        self.assertEqual(ran.status, 0)
        text = ran.text.replace("\\-", "-")
        self.assertEqual([word for word in COMMANDS[:4] + COMMON + ["--copy-map", "--new-map", "--svg"] if word not in text], [])

    @unittest.skipUnless(shutil.which("groff"), "groff is not installed")
    def test_the_manual_page_is_set_without_a_warning(self):
        done = subprocess.run(["groff", "-man", "-Tutf8", "-ww", "-z"], input=run("man").out, capture_output=True)
        self.assertEqual((done.returncode, done.stderr.decode()), (0, ""))


if __name__ == "__main__":
    unittest.main()
