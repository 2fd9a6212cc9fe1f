"""The random numbers of the program: those of PCG's own example, and numbers below a bound."""
from unittest import mock

from common import Case

from bgptools.program.pcg import STREAM, Pcg32

# The first round of `pcg32-demo` of PCG's C code: pcg32_srandom(42u, 54u).
WORDS = [0xA15C02B7, 0x7B47F409, 0xBA1D3330, 0x83D2F293, 0xBFA4784B, 0xCBED606E]


class Generator(Case):
    def test_words_of_the_example_program(self):
        generator = Pcg32(42, 54)
        self.assertEqual([generator.next_u32() for _ in WORDS], WORDS)
        self.assertEqual(STREAM, 54)

    def test_state_and_stream_count(self):
        made = {(state, stream): Pcg32(state, stream).next_u32() for state in (0, 1, 42) for stream in (0, 1, 54)}
        self.assertEqual(len(set(made.values())), 9)
        self.assertEqual(Pcg32(1 << 64 | 42, 1 << 64 | 54).next_u32(), WORDS[0])

    def test_numbers_below_a_bound(self):
        """By hand: the word's part of the bound; where its rest is above 2^32 less the bound, another word's part may carry."""
        generator = Pcg32(42, 54)
        self.assertEqual([generator.below(1000) for _ in WORDS], [word * 1000 >> 32 for word in WORDS])
        for words, wanted in (((1 << 31,), 1), (((1 << 32) // 3 + 1,), 1), (((1 << 32) // 3 * 2, 0), 1), (((1 << 32) - 1,), 2), ((0,), 0)):
            with self.subTest(words=words), mock.patch.object(Pcg32, "next_u32", side_effect=words):
                self.assertEqual(generator.below(3), wanted)

    def test_a_carry(self):
        """(2^32 - 1) / 3 times 3 is 2^32 - 1: any further part of 1 and more carries."""
        for more, wanted in ((0, 0), ((1 << 32) // 3, 0), ((1 << 32) // 3 + 1, 1), ((1 << 32) - 1, 1)):
            with self.subTest(more=more), mock.patch.object(Pcg32, "next_u32", side_effect=(((1 << 32) - 1) // 3, more)):
                self.assertEqual(Pcg32(0, 0).below(3), wanted)

    def test_each_number_comes(self):
        generator = Pcg32(7, STREAM)
        self.assertEqual({generator.below(10) for _ in range(1000)}, set(range(10)))
        self.assertEqual([generator.below(1) for _ in range(3)], [0, 0, 0])
