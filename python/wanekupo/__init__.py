"""What stands around the server of Wanekupo: a station's seat and its bench, a customer's books, and a plant's tools.

Its packages import downwards alone: `cli` over `plant`, over `standby` and `metrics`, over `bench`, `lots` and `books`,
over `seat`, over `chips`, over `common` (tests/test_layers.py). Python 3.11, the standard library, and
`python3-cryptography` for the keys of identities.
"""

__version__ = "2.0.0"
