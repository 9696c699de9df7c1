"""Images are those of the program distinct, which DISTINCT_PROGRAM names, as checks/bindings does."""
import os
import subprocess

import pytest
from kaftanclay import CompactThetaSketch, ThetaSketch

PROGRAM = os.environ.get("DISTINCT_PROGRAM")


@pytest.mark.skipif(not PROGRAM, reason="DISTINCT_PROGRAM names no program")
def test_images_of_distinct(tmp_path):
    sketches = []
    for name, start in (("monday", 0), ("tuesday", 20000)):
        keys = [f"user {at}" for at in range(start, start + 30000)]
        (tmp_path / name).write_text("".join(f"{key}\n" for key in keys), encoding="utf-8")
        sketch = ThetaSketch()
        sketch.update_many(keys)
        sketch.trim()
        sketches.append(sketch)
    first, second = sketches

    def written(*words):
        subprocess.run([PROGRAM, *words], cwd=tmp_path, check=True)
        return (tmp_path / words[2]).read_bytes()

    for sketch, name in ((first, "monday"), (second, "tuesday")):
        assert written("sketch", "--output", f"{name}.theta", name) == sketch.to_bytes()
    for command, combined in (("union", first | second), ("meet", first & second), ("minus", first - second)):
        image = written(command, "--output", f"{command}.theta", "monday.theta", "tuesday.theta")
        assert image == combined.to_bytes() and CompactThetaSketch.from_bytes(image) == combined
