"""What the tools that play scripts share: by the proved program where it is built, else by an unproved build with run-time checks."""
import os, re, shutil, subprocess, sys, tempfile

HERE = os.path.dirname(os.path.dirname(os.path.abspath(__file__)))
CRATE = os.path.join(HERE, "crates", "table_play")
SECONDS = 600  # how long the unproved build may play one script
NOT_PROVED = ("The program is not proved and built here yet, so an unproved build plays, which is made anew in each call: one to two minutes.\n"
              "`make program` proves and builds the program once; from then on each call plays at once.")
NO_ANSWER = "the unproved build gave no answer: it plays for ten minutes and writes a megabyte at most. `make program` builds the one for long scripts"

def proved_program():
    """Where the proved program is, if it is there and as its sources stand."""
    ran = subprocess.run([os.path.join(HERE, "tools", "built"), "--there", "table_play"], stdout=subprocess.PIPE)
    return ran.stdout.decode().strip() if ran.returncode == 0 else None

def by_program(program, script):
    """The status and the text of one play."""
    ran = subprocess.run([program, "play"], stdin=script, stdout=subprocess.PIPE)
    return ran.returncode, ran.stdout

def straight_by_program(program, script):
    """The status of one play, which writes to standard output itself."""
    return subprocess.run([program, "play"], stdin=script).returncode

def written_by_case(text):
    """The text that each case wrote: the build prints each under a line with its name, which is a number."""
    pieces = re.split(rb"(?m)^== (\d+)\n", text)
    return dict(zip(map(int, pieces[1::2]), pieces[2::2]))

def by_unproved_build(scripts):
    """The statuses and texts of all plays, by one build. The status is None where a play gave no answer."""
    if not shutil.which("rt"):
        sys.exit("the Rattle kit's command rt is not on the path")
    with tempfile.TemporaryDirectory() as folder:
        for number, script in enumerate(scripts):
            with open(os.path.join(folder, str(number)), "wb") as case:
                shutil.copyfileobj(script, case)
        ran = subprocess.run(["rt", "try", "--seconds", str(SECONDS), "--cases", folder, "--", "play"], cwd=CRATE,
                             stdin=subprocess.DEVNULL, stdout=subprocess.PIPE, stderr=subprocess.PIPE)
    told = ran.stderr.decode(errors="replace")
    statuses = {int(number): int(status) for number, status in re.findall(r"(?m)^case=(\d+) .*\bended status=(\d+)", told)}
    if not re.search(r"(?m)^case=", told):
        sys.exit("the unproved build failed:\n" + told)
    written = written_by_case(ran.stdout)
    return [(statuses.get(number), written.get(number, b"")) for number in range(len(scripts))]
