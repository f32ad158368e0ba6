"""Words and lists, as the format page has them."""
import unittest

from dsnroute_kicad.brackets import Group, TextFault, read_list

READ = [
    (b"(a b c)", ["a", "b", "c"]),
    (b' ( a "b c" ) \n', ["a", "b c"]),
    (b'(a x"b c"y "")', ["a", "xb cy", ""]),
    (b"(a\n# passed ( over\n b)", ["a", "b"]),
    (b"(a #b)", ["a", "#b"]),
    (b'(a "b\n#c"\n)', ["a", "b\n#c"]),
    (b"(parser (string_quote ') 'a b')", ["parser", ["string_quote", "'"], "a b"]),
    (b'(parser (string_quote ") "a b")', ["parser", ["string_quote", '"'], "a b"]),
    (b"(net 5 (pins 1-2))", ["net", "5", ["pins", "1-2"]]),
    ("(net /\u00e9\u00b0)".encode(), ["net", "/\u00e9\u00b0"]),
]
REFUSED = [
    (b"", 0), (b"   ", 0), (b"a", 0), (b"(a", 0), (b"(a (b)", 0), (b"(a))", 3), (b"(a) b", 4), (b"(a) (b)", 4),
    (b'(a "b)', 3), (b"(string_quote %)", 13), (b"(a \xff)", 3), (b")", 0),
]


def plain(group: Group) -> list:
    return [plain(part) if isinstance(part, Group) else str(part) for part in group]


class Brackets(unittest.TestCase):
    def test_read(self) -> None:
        for text, parts in READ:
            with self.subTest(text):
                self.assertEqual(plain(read_list(text)), parts)

    def test_refused(self) -> None:
        for text, place in REFUSED:
            with self.subTest(text):
                with self.assertRaises(TextFault) as caught:
                    read_list(text)
                self.assertEqual(caught.exception.place, place)

    def test_places(self) -> None:
        text = b'(a (b "c d") e)'
        whole = read_list(text)
        self.assertEqual((whole.place, whole.end, whole[1].place, whole[1].end), (0, 15, 3, 12))
        self.assertEqual([part.place for part in whole], [1, 3, 13])

    def test_line(self) -> None:
        text = b"(a\n (b"
        with self.assertRaises(TextFault) as caught:
            read_list(text)
        self.assertTrue(caught.exception.at_line(text).startswith("line 2, column 2: "))


if __name__ == "__main__":
    unittest.main()
