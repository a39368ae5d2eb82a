"What mps2job.py makes of files: the job, the table of names, and the answer of the program that is at hand; and esolver's exact answer beside it."
import contextlib
import io
import json
import os
import pathlib
import re
import shutil
import subprocess
from fractions import Fraction

import places  # pylint: disable=unused-import  (the packages are known from here on)
from mps360 import programs
from mps360.cli import mps2job
from mps360.listings import read as listing2json
from oracle import listing as expected_listing

SECONDS = 60


class House:
    "a temporary folder, and the programs that are there"

    def __init__(self, folder):
        self.folder = pathlib.Path(folder)
        self.program = os.environ.get("MPS360_PROGRAM") or programs.proved_program()
        self.esolver = shutil.which("esolver")

    def convert(self, data, words, name="model.mps"):
        "what mps2job.py does with a file: its status, the job, the table of names, what it says"
        path, job, names = self.folder / name, self.folder / "model.job", self.folder / "model.names"
        path.write_bytes(data)
        said = io.StringIO()
        for old in (job, names):
            old.unlink(missing_ok=True)
        try:
            with contextlib.redirect_stderr(said):
                status = mps2job.main(["-o", str(job), "--names", str(names), *words, str(path)])
        except SystemExit as ended:
            status = ended.code
        if status:
            return status, "", {}, said.getvalue()
        return status, job.read_text(encoding="ascii"), json.loads(names.read_text(encoding="utf-8")), said.getvalue()

    def listing(self, job):
        if self.program:
            return subprocess.run([self.program], input=job, stdout=subprocess.PIPE, encoding="ascii", cwd=self.folder, timeout=SECONDS).stdout
        run = expected_listing.Run(job)
        run.run()
        return "\n".join(run.lines) + "\n"

    def solved(self, job):
        "the reports of the job's listing, with the file's names"
        listing = listing2json.parse(self.listing(job))
        self.end = (listing["end"] or {}).get("text", "")
        with contextlib.redirect_stderr(io.StringIO()) as said:
            listing2json.name_back(listing, listing2json.read_names(self.folder / "model.names"))
        assert not said.getvalue(), f"listing2json.py says {said.getvalue()!r} of\n{job}"
        return listing["reports"]

    def exact(self, plain):
        "esolver's verdict and its exact objective"
        path, answer = self.folder / "plain.mps", self.folder / "plain.sol"
        answer.unlink(missing_ok=True)
        path.write_text(plain, encoding="ascii")
        ended = subprocess.run([self.esolver, "-O", answer, path], capture_output=True, timeout=SECONDS)
        told = answer.read_text() if answer.exists() else ""
        verdict = re.search(r"status = (\w+)|status (\w+)", told)
        value = re.search(r"Value = (\S+)", told)
        if not verdict:
            return f"no answer: {ended.stdout[-300:]!r} {ended.stderr[-300:]!r}", None
        return (verdict[1] or verdict[2]).lower(), Fraction(value[1]) if value else None


def verdict_of(reports):
    "the verdict, and where it is optimal the objective and that with its constant"
    report = next((report for report in reports if report["report"] == "verdict"), {})
    best = report.get("verdict") == "optimal"
    return report.get("verdict"), *(report.get(key) if best else None for key in ("objective", "objective_with_constant"))
