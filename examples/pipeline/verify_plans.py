#!/usr/bin/env python3
"""Verifies plans in a pipeline: prints a JUnit report, with status 1 unless every plan is accepted.

  examples/pipeline/verify_plans.py PLAN.. > report.xml

The variable SCCP names the launcher if it is not ./sccp.
"""
import json
import os
import subprocess
import sys
from xml.sax.saxutils import escape, quoteattr


def case(plan):
    """The test case of a plan, and whether it has failed."""
    call = [os.environ.get("SCCP", "./sccp"), "--json", "verify", plan]
    done = subprocess.run(call, stdout=subprocess.PIPE, text=True, check=False)
    if done.returncode == 0:
        return f"<testcase name={quoteattr(plan)}/>", False
    lines = [json.loads(line) for line in done.stdout.splitlines()]
    why = " ".join([f"status {done.returncode}"] + [line[key] for line in lines[:1] for key in ("form", "kind", "fault") if key in line])
    hops = [line for line in lines if line["form"] == "hop"]
    route = "\n".join(f"{hop['node']} {hop['title']['digits']}: {hop['step']} {hop.get('next', '')}".strip() for hop in hops)
    return f"<testcase name={quoteattr(plan)}><failure message={quoteattr(why)}>{escape(route)}</failure></testcase>", True


cases = [case(plan) for plan in sys.argv[1:]]
failures = sum(failed for _, failed in cases)
print(f'<testsuite name="plans" tests="{len(cases)}" failures="{failures}">', *(text for text, _ in cases), "</testsuite>", sep="\n")
sys.exit(failures > 0)
