"""Events of ten members, drawn at random, as lines of JSON have them."""


def event(r, i):
    return {
        "id": i, "time": 1_700_000_000_000_000 + i * 1_000_003, "user": "user%d" % r.randrange(100_000),
        "country": r.choice(["de", "fr", "us", "jp", "br"]),
        "path": r.choice(["/", "/index.html", "/a/long/path/to/some/page", "/café?q=1&r=2", '/say "hi"']),
        "status": r.choice([200, 304, 404, 500]), "duration": r.choice([None, r.randrange(5000)]),
        "referrer": r.choice([None, "https://example.com/", "https://example.org/search?q=arrow"]),
        "is_bot": r.random() < 0.5, "amount": r.choice([None, r.randrange(1 << 40)]),
    }
