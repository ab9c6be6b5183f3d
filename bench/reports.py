"""Reports of any size: valid ones, and ones with findings."""

SMALLEST = b'{"documentInfo":{"documentType":"https://xbrl.org/2021/xbrl-json","taxonomy":["t"]}}'

INFO = (
    b'{"documentInfo":{"documentType":"https://xbrl.org/2021/xbrl-json","namespaces":'
    b'{"eg":"http://example.com/eg","iso4217":"http://www.xbrl.org/2003/iso4217",'
    b'"lei":"http://standards.iso.org/iso/17442"},"taxonomy":["http://example.com/eg.xsd"]},"facts":{'
)

FACT = (
    b'"f%06d":{"value":"100","decimals":0,"dimensions":{"concept":"eg:Assets","entity":"lei:ACME",'
    b'"period":"2024-12-31T00:00:00","unit":"iso4217:EUR"}}'
)

# A fact without a value, which is one finding.
WRONG = FACT.replace(b'"value":"100",', b"")


def facts(form, count):
    """A report with so many facts of the form."""
    return INFO + b",".join(form % (number + 1) for number in range(count)) + b"}}"


def report(most):
    """A valid report of at most so many bytes, with as many facts as fit."""
    return facts(FACT, (most - len(INFO) - 2) // (len(FACT % 1) + 1))


def wide():
    """A report with one fact, whose identifier is long and whose dimensions are many and wrong."""
    dimensions = b",".join(b'"%05d":1' % number for number in range(50_000))
    return INFO + b'"%s":{"value":"1","dimensions":{%s}}}}' % (b"a" * 500_000, dimensions)


def crowded(most):
    """A report of at most so many bytes with 1,000 findings, each at a fact of its own. The other members of the facts
    are all of one name."""
    named = b"".join(b'"%03d":0,' % number for number in range(999))
    one, last = b'"x":0,', b'"x":0}}'
    return INFO + named + one * ((most - len(INFO) - len(named) - len(last)) // len(one)) + last
