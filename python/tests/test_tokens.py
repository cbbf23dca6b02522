"""Tokens of expressions."""

from __future__ import annotations

import unittest

from korzhinay import Code, Refused, Token, tokens

EXPRESSION = b"$(WEEK) GE 0x30 AND g.Pcd!=L\"a#b\" # to the end"
TOKENS = (
    Token(Code.MACRO, 0, 7, 0, b"$(WEEK)"),
    Token(Code.GREATER_EQUAL, 8, 2, 0, b"GE"),
    Token(Code.NUMBER, 11, 4, 48, b"0x30"),
    Token(Code.AND, 16, 3, 0, b"AND"),
    Token(Code.PCD, 20, 5, 0, b"g.Pcd"),
    Token(Code.NOT_EQUAL, 25, 2, 0, b"!="),
    Token(Code.WIDE, 27, 6, 0, b'L"a#b"'),
)
# Refused expressions, with the refusal's number and offset and how many tokens there are before the fault.
REFUSED = [
    (b" " * 1025, 2, 0, 0),
    (b"1 @", 3, 2, 1),
    (b"@", 3, 0, 0),
    (b"1 + 18446744073709551616", 4, 4, 2),
    (b"+" * 201, 5, 200, 200),
    (b"(" * 17, 6, 16, 17),
]


class Tokens(unittest.TestCase):
    def test_an_expression(self) -> None:
        self.assertEqual(tokens(EXPRESSION), TOKENS)

    def test_a_truth_word_has_a_value(self) -> None:
        found = [(token.code, token.value) for token in tokens("TRUE False 'true'")]
        self.assertEqual(found, [(Code.TRUTH, 1), (Code.TRUTH, 0), (Code.STRING, 0)])

    def test_no_token(self) -> None:
        for nothing in "", " \t", "# 1":
            self.assertEqual(tokens(nothing), ())

    def test_what_was_read_before_a_refusal(self) -> None:
        for expression, number, offset, count in REFUSED:
            with self.subTest(expression[:20]), self.assertRaises(Refused) as caught:
                tokens(expression)
            refused = caught.exception
            self.assertEqual((refused.number, refused.line, refused.offset, len(refused.tokens)), (number, 0, offset, count))
            for token in refused.tokens:
                self.assertEqual(token.text, expression[token.start : token.start + token.length])

    def test_tokens_need_not_form_an_expression(self) -> None:
        self.assertEqual([token.text for token in tokens("1 2 |")], [b"1", b"2", b"|"])
