"""The refusals of docs/integrate/api.md, for the office of tests."""

REFUSALS = {
    6: ("unknown_token", 401), 7: ("unknown_path", 404), 8: ("wrong_caller", 403), 9: ("bad_json", 400),
    10: ("bad_member", 400), 11: ("wrong_number", 409), 12: ("other_body", 409), 13: ("unknown_map", 404),
    14: ("unknown_order", 404), 15: ("unknown_device", 404), 16: ("exists", 409), 17: ("wrong_state", 409),
    18: ("quantity_reached", 409), 19: ("unknown_field", 422), 20: ("unmapped_bit", 422), 21: ("value_too_wide", 422),
    22: ("clears_burnt", 422), 23: ("contradiction", 422), 24: ("wrong_kind", 422), 25: ("other_key", 422),
    26: ("write_protected", 422), 27: ("hidden", 422), 28: ("no_lock", 422), 29: ("bad_map", 422),
    30: ("bad_serial", 422), 31: ("number_too_wide", 422), 32: ("exhausted", 409), 33: ("no_mac_room", 409),
    34: ("range_overlap", 409), 35: ("key_bound", 409), 36: ("coding_scheme", 422), 37: ("foreign_issuer", 422),
    38: ("import_conflict", 409), 41: ("bad_readback", 422), 42: ("bad_not_before", 422),
}  # fmt: skip


class Refusal(Exception):
    """A refusal by its number, with what its body has beside it."""

    def __init__(self, number, **more):
        super().__init__(number)
        self.number, self.more = number, more

    def body(self):
        return {"error": REFUSALS[self.number][0], "no": self.number, **self.more}
