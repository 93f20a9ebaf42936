"""Tests real programs, and that each test fails with a picture when any one of its keys is left out."""
import concurrent.futures
import pathlib

import pytest
from programs import PROGRAMS, SCREENS, Forgetful

import vt220
from vt220.rig import Failure, Reports


@pytest.mark.parametrize("name", PROGRAMS)
def test_a_program(vt, tmp_path, name):
    PROGRAMS[name](vt.run, tmp_path)


def attempt(name, directory, left_out, timeout):
    """Runs the test of a program without one key, and returns its rig and how it failed."""
    directory.mkdir()
    started = []

    def run(*argv, **options):
        reports = Reports(directory / "reports", "report")
        started.append(Forgetful(argv, left_out, screens=SCREENS, timeout=timeout, reports=reports, **options))
        return started[-1]

    (directory / "work").mkdir()
    try:
        PROGRAMS[name](run, directory / "work")
    except Failure as fault:
        return started[0], fault
    finally:
        for rig in started:
            rig.close()
    return started[0], None


def shown_by(fault, directory, rig):
    """Returns whether a failure says what was waited for, shows the screen, and has its picture and its recording beside it."""
    picture, recording = directory / "reports" / "report.svg", directory / "reports" / "report.bytes"
    words = str(fault)
    return (picture.read_text(encoding="utf-8").startswith(rig.last.picture.rpartition("</svg>")[0]) and recording.read_bytes() == rig.recording
            and "the last events:" in words and str(picture) in words and all(line in words for line in rig.last.rows))


@pytest.mark.parametrize("name", PROGRAMS)
def test_each_key_that_is_left_out_is_a_failure_with_a_picture(tmp_path, name):
    whole, fault = attempt(name, tmp_path / "whole", -1, 300)
    assert fault is None and whole.pressed > 2
    with concurrent.futures.ThreadPoolExecutor(16) as pool:
        tries = {number: pool.submit(attempt, name, tmp_path / str(number), number, 1.5) for number in range(whole.pressed)}
    for number, done in tries.items():
        rig, fault = done.result()
        assert fault is not None, f"key {number} isn't missed"
        assert shown_by(fault, tmp_path / str(number), rig), fault
