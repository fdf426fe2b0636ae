"""The person's way in: models and formulas as text with names.

Reading and writing text: `model_text`, `formula_text`, `names`.
Message bytes: `compiler`, `decoder`, `fields`, `checks`, `sizes`.
The program, the library and what they say: `running`, `library` (with bridge.c), `asking`, `answers`, `settled`.
What is asked before each release: `release`, `least`, `why` (with `runs`).
Pictures: `drawing`. The commands: `cli`, `progress`.
The numbers that document 01 fixes stand once, in `paper`.
"""
