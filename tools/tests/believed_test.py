"""The definitions on which the clauses of the top call rest."""
import os

from common import TOP, ToolTest


class BelievedTest(ToolTest):
    def listed(self, *words):
        *files, total = [line.split() for line in self.done('believed', *words)[0].splitlines()]
        self.assertEqual(int(total[0]), sum(int(lines) for lines, _ in files))
        return {name for _, name in files}

    def test_each_clause_rests_on_files_that_stand(self):
        for clause, among in (('headline', 'order_table/specs/RightTable'), ('headline', 'command_input/specs/Input'),
                              ('truth', 'sun_verdict/specs/Truth'), ('ended', 'timetable/specs/Ended')):
            with self.subTest(clause):
                files = self.listed(clause)
                self.assertIn(f'crates/{among}.antt', files)
                self.assertTrue(all(os.path.isfile(os.path.join(TOP, name)) for name in files))
        self.assertEqual(self.listed(), self.listed('headline'))

    def test_operators_cases_and_types_in_one_another_are_followed(self):
        text, _ = self.done('believed', '--text')
        for line in ('pub record ◌<ᶠ◌ (a b : Fraction)', 'pub data Pairs : Type 0 where', 'pub data Given (X : Type 0)',
                     'pub Value : Limits'):
            self.assertIn(line, text)

    def test_wrong_words(self):
        for words, status, said in ((('left',), 2, 'none of the clauses'), (('no/Thing',), 1, 'no file'), (('a', 'b'), 2, 'too many')):
            with self.subTest(said):
                run = self.run_tool('believed', *words)
                self.assertEqual(run.returncode, status)
                self.assertIn(said, run.stderr)
                self.assertNotIn('Traceback', run.stderr)
