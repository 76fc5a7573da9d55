"""Rows of categories of characters, of references, and of formats."""

# The names of the categories, by their numbers in the table; the last one has no characters.
NAMES = "Lu Ll Lt Lm Lo Mn Mc Me Nd Nl No Pc Pd Ps Pe Pi Pf Po Zs Zl Zp Sm Sc Sk So Cc Cf Cn Co Cs".split()

# `Other_ID_Start` and `Other_ID_Continue` (Unicode 17.0.0, `PropList.txt`): the first and the last character of each range.
OTHER_STARTS = [(0x1885, 0x1886), (0x2118, 0x2118), (0x212E, 0x212E), (0x309B, 0x309C)]
OTHER_PARTS = [(0xB7, 0xB7), (0x387, 0x387), (0x1369, 0x1371), (0x19DA, 0x19DA), (0x200C, 0x200D), (0x30FB, 0x30FB), (0xFF65, 0xFF65)]

# The letter of a group, that of a category, and characters of this category (Unicode, `UnicodeData.txt`).
CATEGORIES = [
    ("L", "u", "AZÀΩЖ𝐀"),
    ("L", "l", "azßµωж"),
    ("L", "t", "ǅǈǋǲ"),
    ("L", "m", "ʰˆ々"),
    ("L", "o", "ªºאا中가𠀀"),
    ("M", "n", "\u0300\u05b0\U000e0100"),
    ("M", "c", "\u0903\U0001d165"),
    ("M", "e", "\u20dd\u0488"),
    ("N", "d", "09٠९𝟎"),
    ("N", "l", "Ⅰↀ〇"),
    ("N", "o", "²¼①"),
    ("P", "c", "_‿"),
    ("P", "d", "-–—"),
    ("P", "s", "([{„"),
    ("P", "e", ")]}"),
    ("P", "i", "«“"),
    ("P", "f", "»”"),
    ("P", "o", "!\"#%&'*,./:;?@\\§"),
    ("Z", "s", " \xa0\u3000"),
    ("Z", "l", "\u2028"),
    ("Z", "p", "\u2029"),
    ("S", "m", "+<=>|~¬±×"),
    ("S", "c", "$¢£€"),
    ("S", "k", "^`¨"),
    ("S", "o", "¦©®°😀"),
    ("C", "c", "\x00\t\n\r\x7f\x9f"),
    ("C", "f", "\xad\u200b\ufeff"),
    ("C", "o", "\ue000\U0010fffd"),
    ("C", "n", "\u0378\uffff\U0010ffff"),
]

# Letters of a group and of a category, or of a group alone, a character that is in it, and one that is not.
MEMBERS = [
    ("L", "u", "É", "é"),
    ("N", "d", "7", "x"),
    ("L", "", "é", "7"),
]

# Letters that name no category.
NO_CATEGORIES = [("N", "x")]

# A longer name of a category, a character that is in it, and one that is not.
NAMED = [("digit", "7", "x")]

# The base of the references, and a reference with its target (RFC 3986, 5.4).
BASE = "http://a/b/c/d;p?q"
RESOLVED = [
    # 5.4.1, normal examples
    ("g:h", "g:h"),
    ("g", "http://a/b/c/g"),
    ("./g", "http://a/b/c/g"),
    ("g/", "http://a/b/c/g/"),
    ("/g", "http://a/g"),
    ("//g", "http://g"),
    ("?y", "http://a/b/c/d;p?y"),
    ("g?y", "http://a/b/c/g?y"),
    ("#s", "http://a/b/c/d;p?q#s"),
    ("g#s", "http://a/b/c/g#s"),
    ("g?y#s", "http://a/b/c/g?y#s"),
    (";x", "http://a/b/c/;x"),
    ("g;x", "http://a/b/c/g;x"),
    ("g;x?y#s", "http://a/b/c/g;x?y#s"),
    ("", "http://a/b/c/d;p?q"),
    (".", "http://a/b/c/"),
    ("./", "http://a/b/c/"),
    ("..", "http://a/b/"),
    ("../", "http://a/b/"),
    ("../g", "http://a/b/g"),
    ("../..", "http://a/"),
    ("../../", "http://a/"),
    ("../../g", "http://a/g"),
    # 5.4.2, abnormal examples
    ("../../../g", "http://a/g"),
    ("../../../../g", "http://a/g"),
    ("/./g", "http://a/g"),
    ("/../g", "http://a/g"),
    ("g.", "http://a/b/c/g."),
    (".g", "http://a/b/c/.g"),
    ("g..", "http://a/b/c/g.."),
    ("..g", "http://a/b/c/..g"),
    ("./../g", "http://a/b/g"),
    ("./g/.", "http://a/b/c/g/"),
    ("g/./h", "http://a/b/c/g/h"),
    ("g/../h", "http://a/b/c/h"),
    ("g;x=1/./y", "http://a/b/c/g;x=1/y"),
    ("g;x=1/../y", "http://a/b/c/y"),
    ("g?y/./x", "http://a/b/c/g?y/./x"),
    ("g?y/../x", "http://a/b/c/g?y/../x"),
    ("g#s/./x", "http://a/b/c/g#s/./x"),
    ("g#s/../x", "http://a/b/c/g#s/../x"),
    # strict
    ("http:g", "http:g"),
]

# The host of a base of more than 300 characters, which the same references are resolved against.
LONG_HOST = "a" * 300

# Other bases, with a reference and its target: of the documentation, and a long path, which takes little time.
BASES = [
    ("http://example.com/a/b", "../c#d", "http://example.com/c#d"),
    ("http://example.com/a/b?c", "../d", "http://example.com/d"),
    ("http://a/b", "é/" * 200_000 + "../" * 200_000, "http://a/"),
]

# A reference, the part before its fragment, and the fragment.
FRAGMENTS = [
    ("a/b#c", "a/b", "c"),
    ("a/b", "a/b", None),
]

# Names of no format.
NO_FORMATS = [("regexp",), ("",), ("Date",)]

# The name of a format, a text, and whether the text has it: examples of RFCs, and long texts, which take little time.
FORMATS = [
    ("date", "2024-02-29", True),
    ("date", "1900-02-29", False),
    ("time", "15:59:60.5-08:00", True),
    ("time", "12:00:60Z", False),
    ("date-time", "1985-04-12T23:20:50.52Z", True),
    ("duration", "P4DT12H30M5S", True),
    ("duration", "P1W1D", False),
    ("email", "joe.bloggs@example.com", True),
    ("email", '"joe@bloggs"@[127.0.0.1]', True),
    ("uuid", "f81d4fae-7dec-11d0-a765-00a0c91e6bf6", True),
    ("ipv6", "::1", True),
    ("hostname", "www.example.com", True),
    ("hostname", "host-.example.com", False),
    ("ipv4", "192.168.0.1", True),
    ("ipv4", "192.168.0.256", False),
    ("ipv6", "::ffff:192.168.0.1", True),
    ("ipv6", "1::2::3", False),
    ("json-pointer", "/a~1b/0", True),
    ("json-pointer", "/a~2b", False),
    ("relative-json-pointer", "1/a", True),
    ("relative-json-pointer", "0#", True),
    ("uri", "ldap://[2001:db8::7]/c=GB?objectClass?one", True),
    ("uri", "//example.com/a", False),
    ("uri-reference", "../a%20b#c", True),
    ("uri-reference", "a b", False),
    ("uri-template", "/dictionary/{term:1}/{term}{?page,lang*}", True),
    ("uri-template", "/dictionary/{term", False),
    # RFC 1123, 2.1: a name of a host never has the form #.#.#.#, "since at least the highest-level component label will be alphabetic"
    ("hostname", "127.0.0.1", False),
    ("hostname", "256.1.1.999", False),
    ("hostname", "example.123", False),
    ("hostname", "7", False),
    ("hostname", "1.2.example", True),
    # RFC 5321, 4.1.2: a domain is of such labels, of which each may be of digits; 4.5.3.1.1: a local part has at most 64 octets
    ("email", "a@127.0.0.1", True),
    ("email", "a" * 64 + "@example.com", True),
    ("email", "a" * 65 + "@example.com", False),
    ("email", '"' + "a" * 62 + '"@example.com', True),
    ("email", '"' + "a" * 63 + '"@example.com', False),
    # 4.1.3: `Snum` has one to three digits; `::` stands for two groups at least, so that there are 6 others at most, or 4 and an
    # address of IPv4; letters of strings have no case (RFC 5234, 2.3)
    ("email", "a@[127.000.000.001]", True),
    ("email", "a@[127.0.0.0001]", False),
    ("email", "a@[127.0.0.256]", False),
    ("email", "a@[ipv6:::1]", True),
    ("email", "a@[IPV6:::1]", True),
    ("email", "a@[IPv6:1:2:3:4:5:6:7:8]", True),
    ("email", "a@[IPv6:1:2:3:4:5:6::]", True),
    ("email", "a@[IPv6:1:2:3:4:5:6:7::]", False),
    ("email", "a@[IPv6:1:2:3::4:5:6]", True),
    ("email", "a@[IPv6:1:2:3::4:5:6:7]", False),
    ("email", "a@[IPv6:::2:3:4:5:6:7:8]", False),
    ("email", "a@[IPv6:1:2:3:4:5:6:1.2.3.4]", True),
    ("email", "a@[IPv6:1:2:3:4::1.2.3.4]", True),
    ("email", "a@[IPv6:1:2:3:4:5::1.2.3.4]", False),
    ("email", "a@[IPv6:::1.2.3.004]", True),
    # RFC 4291, 2.2: `::` stands for one group or more
    ("ipv6", "1:2:3:4:5:6:7::", True),
    ("ipv6", "1:2:3:4:5::1.2.3.4", True),
    ("ipv6", "1:2:3:4:5:6::1.2.3.4", False),
    ("ipv6", "1:2:3:4:5:6:7:8::", False),
    # RFC 3986, 3.2.2: `dec-octet` has no leading zeros
    ("ipv4", "127.000.000.001", False),
    ("ipv6", "::1.2.3.004", False),
    # RFC 5234, 2.3: letters of strings have no case
    ("duration", "p1d", True),
    ("duration", "P1dt2H3m4S", True),
    ("duration", "p1w", True),
    ("duration", "P1X", False),
    ("duration", "p", False),
    # RFC 3339, 5.7: a leap second is at the end of a month, in UTC
    ("date-time", "1985-06-15T23:59:60Z", False),
    ("date-time", "1985-06-30T23:59:60Z", True),
    ("date-time", "1985-06-30T23:59:60+00:00", True),
    ("date-time", "1990-12-31T15:59:60-08:00", True),
    ("date-time", "1991-01-01T00:59:60+01:00", True),
    ("date-time", "1990-12-31T00:59:60+01:00", False),
    ("date-time", "1991-01-01T15:59:60-08:00", False),
    ("date-time", "1984-02-28T23:59:60Z", False),
    ("date-time", "1984-02-29T23:59:60Z", True),
    ("date-time", "1991-01-01T23:59:60Z", False),
    ("date-time", "1991-01-01T00:00:60+00:01", True),
    ("date-time", "1991-01-01T00:01:60+00:01", False),
    ("date-time", "1990-12-31T00:58:60-23:01", True),
    ("time", "00:59:60+01:00", True),
    ("time", "00:58:60+01:00", False),
    # draft-bhutton-relative-json-pointer-00, 3: `index-manipulation`
    ("relative-json-pointer", "0-1/a", True),
    ("relative-json-pointer", "0+1#", True),
    ("relative-json-pointer", "2+10", True),
    ("relative-json-pointer", "0+01#", False),
    ("relative-json-pointer", "0+", False),
    ("relative-json-pointer", "0+/a", False),
    ("relative-json-pointer", "0+1-1", False),
    ("relative-json-pointer", "0*1", False),
    ("uri-reference", "b/" * 200_000, True),
    ("uri-reference", "b/" * 200_000 + " ", False),
]
