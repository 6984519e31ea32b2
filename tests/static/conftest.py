"""The static suite looks at all that the repository has, so it declares no inputs. It needs no program."""

NEEDS_PROGRAM = False
