"""Images don't record lg_k: operators on them drop nothing in silence that an operand retains."""
import copy
import pickle
import warnings

import pytest
from kaftanclay import (
    CompactThetaSketch,
    CompactTupleSums,
    SketchWarning,
    ThetaIntersection,
    ThetaSketch,
    ThetaUnion,
    TupleSums,
    TupleSumsUnion,
    _sketch,
)


@pytest.fixture(autouse=True)
def warnings_are_errors():
    with warnings.catch_warnings():
        warnings.simplefilter("error")
        yield


def theta(keys, lg_k=14):
    made = ThetaSketch(lg_k)
    made.update_many(keys)
    made.trim()
    return made


def sums(keys, lg_k=14):
    made = TupleSums(lg_k)
    made.update_many(keys)
    made.trim()
    return made


KINDS = [(theta, CompactThetaSketch, ThetaSketch, ThetaUnion), (sums, CompactTupleSums, TupleSums, TupleSumsUnion)]


def hashes_of(it):
    return set(it.hashes()) if hasattr(it, "hashes") else {hash for hash, _ in it.items()}


@pytest.mark.parametrize("make, compact, updatable, union", KINDS)
def test_unions_of_images_keep_what_both_retain(make, compact, updatable, union):
    for first, second in ((range(3000), range(3000, 6000)), (range(60000), range(30000, 90000)), (range(16000), range(9000, 30000)), ([], range(9))):
        a, b = make(first), make(second)
        read_a, read_b = compact.from_bytes(a.to_bytes()), compact.from_bytes(b.to_bytes())
        theta = min(a.theta, b.theta)
        wanted = {it for it in hashes_of(a) | hashes_of(b) if it < theta}
        found = [read_a | read_b, read_b | read_a, a | read_b, read_a | b, updatable.from_bytes(a.to_bytes()) | updatable.from_bytes(b.to_bytes())]
        found += [pickle.loads(pickle.dumps(read_a)) | read_b, copy.copy(updatable.from_bytes(a.to_bytes())) | b]
        for it in found:
            assert it.theta == theta and hashes_of(it) == wanted
            assert it._guesses_lg_k and 2**it.lg_k >= len(wanted) and it.lg_k >= 12
        if theta == max(a.theta, b.theta) == _sketch.MAX_THETA:
            assert found[0].estimate == len(set(first) | set(second))
        # Whoever passes lg_k chooses.
        known = compact.from_bytes(a.to_bytes(), lg_k=12) | compact.from_bytes(b.to_bytes(), lg_k=12)
        assert not known._guesses_lg_k and known.lg_k == 12 and len(known) <= 4096
        assert len(a | b) <= 2**14 and not (a | b)._guesses_lg_k and (a | b).lg_k == 14
    once = compact.from_bytes(make(range(3000)).to_bytes())
    for start in range(3000, 30000, 3000):
        once |= compact.from_bytes(make(range(start, start + 3000)).to_bytes())
    assert once.estimate == 30000.0 and once.is_exact and once.lg_k == 15


@pytest.mark.parametrize("make, compact, updatable, union", KINDS)
def test_results_know_what_they_guess(make, compact, updatable, union):
    known, read = make(range(5000)), compact.from_bytes(make(range(5000)).to_bytes())
    assert not known._guesses_lg_k and not known.compact()._guesses_lg_k and read._guesses_lg_k and read.lg_k == 13
    for it in (read & known, known & read, read - known, known - read, read | known, copy.deepcopy(read), pickle.loads(pickle.dumps(read & read))):
        assert it._guesses_lg_k and it.lg_k >= 12
    for it in (known & known, known - known, copy.copy(known), pickle.loads(pickle.dumps(known)), pickle.loads(pickle.dumps(known.compact()))):
        assert not it._guesses_lg_k and it.lg_k == 14
    wide = read | known
    assert pickle.loads(pickle.dumps(wide)).lg_k == wide.lg_k and pickle.loads(pickle.dumps(wide)) == wide
    more = updatable.from_bytes(known.to_bytes())
    assert more._guesses_lg_k and more.compact()._guesses_lg_k and pickle.loads(pickle.dumps(more))._guesses_lg_k
    assert not updatable.from_bytes(known.to_bytes(), lg_k=14)._guesses_lg_k
    meet = ThetaIntersection()
    meet.update(theta(range(9)))
    assert meet.result()._guesses_lg_k


@pytest.mark.parametrize("make, compact, updatable, union", KINDS)
def test_unions_of_the_default_lg_k_warn(make, compact, updatable, union):
    """They warn of a sketch that retains more than they keep, once; as an error nothing is merged."""
    many = make(range(5000))
    image = many.to_bytes()
    for it in (many, many.compact(), compact.from_bytes(image), updatable.from_bytes(image), image, bytearray(image), memoryview(image)):
        made = union()
        with pytest.raises(SketchWarning, match="a union without lg_k keeps 4096 hashes, and this sketch retains 5000, .* pass lg_k"):
            made.update(it)
        assert made.result().is_empty
        with pytest.warns(SketchWarning) as caught:
            warned = union()
            warned.update(it)
            warned.update(it)
        assert len(caught) == 1 and caught[0].filename == __file__ and len(warned.result()) == 4096
        for lg_k, count in ((12, 4096), (14, 5000)):
            made = union(lg_k)
            made.update(it)
            assert len(made.result()) == count
    # Sketches of its own lg_k, also with more than 2^12 hashes, and smaller ones.
    made, untrimmed = union(), updatable(12)
    untrimmed.update_many(range(5000))
    assert len(untrimmed) == 5000
    for it in (untrimmed, untrimmed.compact(), make(range(4096)), make(range(4096)).to_bytes(), compact.from_bytes(make(range(9)).to_bytes())):
        made.update(it)
    with pytest.raises(Exception) as caught:
        made.update(image[: len(image) - 8])
    assert type(caught.value).__name__ == "InvalidDataError"


def test_unions_at_the_limit_warn(monkeypatch):
    monkeypatch.setattr(_sketch, "GREATEST_LG_K", 13)
    first, second = (CompactThetaSketch.from_bytes(theta(keys).to_bytes()) for keys in (range(5000), range(5000, 10000)))
    with pytest.warns(SketchWarning, match="at most 2\\^13 hashes") as caught:
        found = first | second
    assert len(found) == 2**13 and caught[0].filename == __file__
    assert len(first | first) == 5000


def test_unions_of_a_series_of_images(monkeypatch):
    pytest.importorskip("pandas")
    from kaftanclay.pandas import theta_union

    images = [CompactThetaSketch.from_bytes(theta(range(at, at + 3000)).to_bytes()) for at in (0, 3000, 6000)]
    assert theta_union(images).estimate == 9000.0 and len(theta_union(images, lg_k=12)) == 4096
    assert len(theta_union([CompactThetaSketch.from_bytes(it.to_bytes(), lg_k=12) for it in images])) == 4096
    monkeypatch.setattr(_sketch, "GREATEST_LG_K", 13)
    with pytest.warns(SketchWarning, match="at most 2\\^13 hashes") as caught:
        theta_union(images)
    assert caught[0].filename == __file__
