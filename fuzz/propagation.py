"""Unit propagation over a list of clauses, for the scripts that judge answers by it. It shares nothing with the program."""


def closed(clauses, given, negated):
    """The least set that has the literals and what clauses force, or None where it clashes."""
    true, grown = set(given), True
    if any(negated(lit) in true for lit in true):
        return None
    while grown:
        grown = False
        for clause in clauses:
            if any(lit in true for lit in clause):
                continue
            free = [lit for lit in clause if negated(lit) not in true]
            if not free:
                return None
            if len(free) == 1:
                true.add(free[0])
                grown = True
    return true
