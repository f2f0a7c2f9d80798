"""Behaviours in Python, judged by the component table of `ttrun serve`. It needs the standard library only.

    from filskeam import Server

    def probe(run, valve):
        if read_temperature() > 80:
            run.set_verdict("fail", "too hot")

    def main(run):
        heater = run.create("heater")
        run.start(heater, probe, run.me)
        run.wait_done(heater)

    with Server() as server:
        result = server.run("t_heater", main, timeout=30)
        assert result.verdict == "pass", result.why

A behaviour is a function of a `Run`, on which it makes its calls. Each runs on a thread of its own. A call of a run that
was stopped raises `Ended`; nothing cuts a behaviour off before its next call.
"""
from .bench import Case, Run, Server
from .errors import DynamicError, Ended, NoProgram, Refused, ServerEnded
from .evidence import VERDICTS, Raised, Result
from .words import Behaviour

__all__ = ["Behaviour", "Case", "DynamicError", "Ended", "NoProgram", "Raised", "Refused", "Result", "Run", "Server", "ServerEnded", "VERDICTS"]
__version__ = "1.0.0"
