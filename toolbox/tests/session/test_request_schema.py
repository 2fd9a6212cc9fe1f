"""The JSON Schema of requests: it is made of the table, and python3-jsonschema judges by it as the table does."""
import json
import random

import jsonschema

from bgptools.session.request_schema import request_schema
from bgptools.session.requests import DEEPEST, Malformed, depth_of, request_in
from common import TOP, Case
from simtools import fuzz_requests

SCHEMA = TOP / "docs" / "reference" / "schemas" / "request.json"
COUNT = 10000


def objects(seed):
    """Objects of requests that were mutated, as often as not: what is no JSON, and what is too deep, is passed over."""
    draw = random.Random(seed)
    while True:
        line = fuzz_requests.mutated(draw)
        try:
            value = json.loads(line.decode("utf-8"), parse_constant=lambda _: 1 // 0)
        except (ValueError, ZeroDivisionError, RecursionError):
            continue
        if isinstance(value, dict) and depth_of(value) <= DEEPEST:
            yield line, value


class Schemas(Case):
    def test_the_file_is_that_of_the_table(self):
        self.assert_as_file(json.dumps(request_schema(), indent=1) + "\n", SCHEMA)

    def test_requests_are_judged_alike(self):
        jsonschema.Draft4Validator.check_schema(request_schema())
        # `do` is another word in each part of the schema: the part of a request's own word judges it, and is quicker.
        whole, taken = jsonschema.Draft4Validator(request_schema()), 0
        parts = {each["properties"]["do"]["enum"][0]: jsonschema.Draft4Validator(each)
                 for each in request_schema()["anyOf"]}
        for _, (line, value) in zip(range(COUNT), objects(1)):
            try:
                request_in(line)
                fits = True
            except Malformed:
                fits = False
            word = value.get("do")
            judge = parts.get(word, whole) if isinstance(word, str) else whole
            self.assertEqual(judge.is_valid(value), fits, line[:300])
            taken += fits
        # Of both kinds there are many.
        self.assertGreater(taken, COUNT // 10)
        self.assertLess(taken, COUNT - COUNT // 10)

    def test_each_word_has_requests_that_fit(self):
        judge, draw = jsonschema.Draft4Validator(request_schema()), random.Random(2)
        for word, (_, fields) in fuzz_requests.VALID.items():
            for _ in range(20):
                self.assertTrue(judge.is_valid({"id": 1, "do": word, **fields(draw)}), word)

    def test_jsonschema_names_no_field_of_a_request_that_is_wrong(self):
        """So requests are checked by their table, which says what is expected in which field."""
        errors = list(jsonschema.Draft4Validator(request_schema()).iter_errors({"do": "script", "from": "0"}))
        self.assertEqual([(list(each.path), each.message.partition("} ")[2]) for each in errors],
                         [([], "is not valid under any of the given schemas")])
        with self.assertRaisesRegex(Malformed, "`from` of the request `script` is expected to be a whole number"):
            request_in(b'{"do": "script", "from": "0"}')
