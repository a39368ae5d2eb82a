"What a listing means, in words. Nothing is solved: verdicts, rays and directions are the listing's, and are compared with the job."
from mps360.listings.read import Listing
from mps360.explain.reports import explain_reports, explain_setups, replay
from mps360.explain.stops import explain_stop


def explain(text: str | None, parsed: Listing) -> None:
    "the end of a listing, its setups and its reports; text is the job, None where there is none"
    end = parsed["end"]
    run, why = replay(text, parsed) if text is not None else (None, None)
    text = text or ""
    if end is None:
        print("The listing has no end: it was cut off (status 25), or isn't whole.")
        return
    if end["text"].startswith("STOP"):
        explain_stop(end, text, [line.rstrip(" \r") for line in text.split("\n")] if text else [], run)
    else:
        print(end["text"])
    if why:
        print(f"\nThe listing isn't of this job ({why}), so it is explained by itself.")
    if run:
        explain_setups(run)
    if not end["text"].startswith("STOP"):
        explain_reports(parsed["reports"], run)
