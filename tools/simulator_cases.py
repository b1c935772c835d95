#!/usr/bin/env python3
"""simulator_cases.py [--check]: writes crates/model_cases/specs/Schedules.antt from tests/yard/NAME.in and NAME.out, so that the definitions are held to
the same answers as the programs. With --check it only says whether that file is up to date, and whether crates/model_cases/proofs/SimulatorCases.antt has
a theorem for each."""
import glob, os, sys

os.chdir(os.path.join(os.path.dirname(os.path.abspath(__file__)), '..'))


def listed(name, what, text):
    rows = ['%s ∷ []' % ' ∷ '.join(str(b) for b in line + b'\n') for line in text.split(b'\n')[:-1]]
    body = '\n'.join('    %s(%s)' % ('' if i == 0 else '++ ', r) for i, r in enumerate(rows))
    return '-- %s\nunfoldable pub %s : List ℕ\n%s =\n%s\n' % (what, name, name, body)


out = """-- Schedules of the simulator and their answers, as text: `paper` is the paper's whole case. Written by tools/simulator_cases.py from
-- tests/yard/.
-- Assumes nothing.
use Rattle.std.specs.Prelude.{ℕ, List, [], ◌∷◌, ◌++◌}
"""
names = [os.path.basename(path)[:-3] for path in sorted(glob.glob('tests/yard/*.in'))]
for name in names:
    given, due = (open('tests/yard/%s.%s' % (name, end), 'rb').read() for end in ('in', 'out'))
    out += '\n' + listed(name + '_schedule', 'tests/yard/%s.in' % name, given) + '\n' + listed(name + '_answers', 'tests/yard/%s.out' % name, due)
target = 'crates/model_cases/specs/Schedules.antt'
if '--check' in sys.argv:
    same = os.path.exists(target) and open(target).read() == out
    print(target, 'is up to date' if same else 'is not what tools/simulator_cases.py writes: run it')
    proofs = open('crates/model_cases/proofs/SimulatorCases.antt').read()
    missing = [name for name in names if 'answers_of %s_schedule ≡ %s_answers' % (name, name) not in proofs]
    print('SimulatorCases.antt has no theorem for: ' + ' '.join(missing) if missing else 'each of %d schedules has its theorem' % len(names))
    sys.exit(0 if same and not missing else 1)
open(target, 'w').write(out)
