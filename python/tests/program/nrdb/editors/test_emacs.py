"""A bug hunt in Debian's Emacs with Debian's dap-mode, and a breakpoint at a line of Go. If either package is missing,
the tests are skipped with a message."""

import json
import os
import shutil
import subprocess
from pathlib import Path

import pytest

from netrev.recording.recording import Recording
from netrev.session.line_index import places_of
from tests.program.nrdb.common.support import EXAMPLES, NRDB, ROOT
from tests.program.support.sharing import NETREV
from tests.trials.go_caused import SOURCE

INSTALLED = Path("/usr/share/emacs/site-lisp")
FOLDERS = [*INSTALLED.glob("elpa/*"), *INSTALLED.glob("elpa-src/*")]
PATIENCE = 300  # seconds
CAUSED = ROOT / "python/tests/caused/once-bad.jsonl"
BEGINNING = """
(setq native-comp-deferred-compilation nil native-comp-speed -1 make-backup-files nil ring-bell-function 'ignore
      dap-auto-configure-features nil dap-breakpoints-file {breakpoints})
(dolist (folder '{folders}) (add-to-list 'load-path folder))
(require 'json)
(load {ours})
(setq netrev-nrdb {nrdb})
(defun line-shown () (with-current-buffer (window-buffer) (line-number-at-pos (window-point))))
(defun file-shown () (file-name-nondirectory (or (buffer-file-name (window-buffer)) "")))
(defun wait-for (wanted)
  (let ((tries 0))
    (while (and (< tries 300) (not (funcall wanted)))
      (setq tries (1+ tries))
      (accept-process-output nil 0.1)
      (sit-for 0.05))))
(defun go-and-tell (what line)
  (wait-for (lambda () (= (line-shown) line)))
  (princ (format "%s %d\\n" what (line-shown))))
"""
HUNT = """
(find-file {recording})
(netrev-debug)
(go-and-tell "end" 23)
(netrev-watch "rg 0")
(dotimes (_ 8) (accept-process-output nil 0.1))
(netrev-reverse-continue)
(go-and-tell "reverse-continue" 22)
(netrev-reverse-continue)
(go-and-tell "reverse-continue" 20)
(netrev-step-back)
(go-and-tell "step-back" 19)
(dap-step-in (dap--cur-session))
(go-and-tell "step-in" 20)
(dap-disconnect (dap--cur-session))
"""
GO_LINE = """
(defun stands-at (what line)
  (wait-for (lambda () (and (equal (file-shown) "main.go") (= (line-shown) line))))
  (let ((said nil))
    (dap--send-message (dap--make-request "evaluate" '(:expression "info position" :context "repl"))
                       (lambda (response) (setq said (gethash "result" (gethash "body" response)))) (dap--cur-session))
    (wait-for (lambda () said))
    (princ (format "%s %s %d, %s\\n" what (file-shown) (line-shown) (car (split-string said "\\n")))))
  (with-current-buffer (window-buffer) (goto-char (point-min)) (set-window-point nil (point-min))))
(find-file {source})
(forward-line 45)
(dap-breakpoint-add)
(goto-char (point-min))
(find-file {recording})
(netrev-debug t)
(wait-for (lambda () (equal (file-shown) "main.go")))
(netrev-reverse-continue)
(stands-at "reverse-continue" 46)
(netrev-reverse-continue)
(stands-at "reverse-continue" 46)
(dap-continue (dap--cur-session) (or (dap--debug-session-thread-id (dap--cur-session)) 1))
(stands-at "continue" 46)
(dap-disconnect (dap--cur-session))
"""

pytestmark = [
    pytest.mark.skipif(not shutil.which("emacs"), reason="emacs isn't on this machine (Debian: emacs-nox)"),
    pytest.mark.skipif(
        not any(path.name.startswith("dap-mode") for path in FOLDERS), reason="dap-mode isn't here (elpa-dap-mode)"
    ),
]


def output_of(script: str, home: Path, recording: Path, **more: str) -> list[str]:
    """Emacs's output while it runs a script."""
    folders = " ".join(json.dumps(str(path)) for path in FOLDERS if path.is_dir())
    named = {
        "breakpoints": str(home / "breakpoints"),
        "ours": str(ROOT / "editors/emacs/netrev-dap.el"),
        "nrdb": NRDB,
        "recording": str(recording),
    }
    words = {name: json.dumps(text) for name, text in (named | more).items()}
    runs = home / "played.el"
    runs.write_text((BEGINNING + script).format(folders=f"({folders})", **words))
    ended = subprocess.run(
        ["emacs", "-Q", "--batch", "-l", str(runs)],
        env=os.environ | {"HOME": str(home), "NETREV": NETREV},
        capture_output=True,
        text=True,
        timeout=PATIENCE,
        check=False,
    )
    assert ended.returncode == 0, ended.stderr[:1500]
    return [line for line in ended.stdout.splitlines() if line]


def test_a_hunt(folder):
    """Finds the lost wake-up."""
    output = output_of(HUNT, folder, EXAMPLES / "lost-wakeup.jsonl")
    wanted = ["end 23", "reverse-continue 22", "reverse-continue 20", "step-back 19", "step-in 20"]
    assert output == wanted


def test_a_breakpoint_at_a_line_of_go_stops_both_ways(folder):
    place = places_of(Recording.read(str(CAUSED))).place("main.go:46")
    assert place
    for path in (CAUSED, CAUSED.with_suffix(".where"), SOURCE):
        shutil.copy(path, folder)
    output = output_of(GO_LINE, folder, folder / CAUSED.name, source=str(folder / SOURCE.name))
    *_, before, last = place.positions
    result = [("reverse-continue", last), ("reverse-continue", before), ("continue", last)]
    assert [line.rpartition(" of ")[0] for line in output] == [f"{way} main.go 46, at {at}" for way, at in result]
