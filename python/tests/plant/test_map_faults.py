"""The faults of a fuse map, by the table of docs/reference/files.md: the number, the line and the member of each."""

import pytest
from conftest import FAMILIES
from map_cases import CHANGES, MAP
from wanekupo.plant.site.map_faults import map_faults


def faults_of(text):
    return [(it.number, it.line, it.member) for it in map_faults(text)]


@pytest.mark.parametrize("text", [
    MAP, MAP.replace('coding = "CODING"\n', ""), MAP.replace("key = true", "key = false"),
    MAP.replace("read = 3", "read = 3, more = 1"), MAP.replace('"CODING", block', '"CODING", key = false, block'),
    *[(FAMILIES / name / "map.toml").read_text() for name in ("esp32", "esp32s3")],
])  # fmt: skip
def test_maps(text):
    assert faults_of(text) == []


@pytest.mark.parametrize("old, new, faults", CHANGES)
def test_faults(old, new, faults):
    assert faults_of(MAP.replace(old, new, 1)) == faults


def test_a_long_field_hides_none():
    """A third field that meets the first, with a short one in between; in another block nothing meets."""
    text = MAP.replace("bit = 0, count = 8 }", "bit = 0, count = 40 }").replace("[{ words = 2 }", "[{ words = 3 }")
    assert [it[:2] for it in faults_of(text)] == [(5, 8), (5, 9)]
    far = '{ name = "FAR", block = 2, bit = 0, count = 32 },\n]'
    assert faults_of(MAP.replace("{ words = 8 }]", "{ words = 8 }, { words = 1 }]").replace("\n]", "\n" + far)) == []


def test_a_key_of_a_short_block():
    """A key field is a whole block of 8 words: 256 bits of a block of 7 words are none."""
    text = MAP.replace("{ words = 8 }", "{ words = 7 }").replace("count = 256", "count = 224")
    assert faults_of(text) == [(8, 11, "field.key")]


@pytest.mark.parametrize("many, faults", [(128, []), (129, [(2, 6, "field")])])
def test_number_of_fields(many, faults):
    names = "".join(f'{{ name = "F{it}", block = {2 + it // 64}, bit = {it % 64}, count = 1 }},\n'
                    for it in range(many - 5))  # fmt: skip
    text = MAP.replace("{ words = 8 }]", "{ words = 8 }, { words = 2 }, { words = 2 }]")
    text = text.replace("\n]", "\n" + names + "]")
    assert faults_of(text) == faults


@pytest.mark.parametrize("length, faults", [(32768, []), (32769, [(2, 1, "the text")])])
def test_length(length, faults):
    """The length is counted in bytes, before the text is read."""
    text = MAP + "# é"
    assert faults_of(text + "x" * (length - len(text.encode()))) == faults
    assert faults_of("[" * 32769) == [(2, 1, "the text")]
