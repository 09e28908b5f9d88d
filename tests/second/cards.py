"""All the test cards, the same for the same seed."""

from __future__ import annotations

from random import Random

from breaks import broken_samples
from card import KINDS
from damaged import damaged_samples, noise, scattered
from drafts import Sample
from limits import limit_field_samples
from pairs import pair_samples
from valid import valid_samples

DEFAULT_SEED = 4_096


def all_samples(seed: int = DEFAULT_SEED) -> list[Sample]:
    rng = Random(seed)
    samples: list[Sample] = []
    for kind in KINDS:
        valid = list(valid_samples(rng, kind))
        samples += valid
        samples += damaged_samples(rng, kind)
        samples += broken_samples(kind)
        samples += limit_field_samples(kind)
        samples += pair_samples(kind)
        samples += scattered(rng, valid, 250)
    samples += noise(rng, 200)
    return samples
